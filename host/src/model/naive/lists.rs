//! The anodes as plain lists: the two sides of the free list, the chains that a change is about, the free anodes, and the
//! slots. Blocks and whole extents are taken from lists and added to them, and the anode table grows (02, No. 6) by the
//! words. It shares no code with the other.

use std::collections::{BTreeMap, BTreeSet};

use super::giving::Step;
use super::Disk;

/// The chain of the entry that a change is about, and that of the directory which it goes into.
pub(super) const ENTRY: usize = 0;
pub(super) const PARENT: usize = 1;

/// An anode in use with what it owns.
#[derive(Clone, Copy, Debug)]
pub(super) struct Extent {
    pub anode: usize,
    pub start: usize,
    pub count: usize,
}

/// What an anode is needed for.
#[derive(Clone, Copy, Debug, PartialEq, Eq)]
pub enum Need {
    /// The head of a new entry.
    Head,
    /// A block that is taken.
    Block,
    /// A run that goes back.
    Run,
}

/// One growth of the table.
#[derive(Clone, Copy, Debug, PartialEq, Eq)]
pub struct Growth {
    pub need: Need,
    pub slot: usize,
    pub block: usize,
    /// The anode whose last block it was, if it was one's: zeroed, but for 2.
    pub emptied: Option<usize>,
}

/// What a change comes to.
#[derive(Clone, Debug)]
pub struct Outcome {
    /// 0, 27 or 28.
    pub answer: u32,
    /// The runs that go back, in order; of a refused change up to the run that found no anode.
    pub steps: Vec<Step>,
    /// The growths, in order; of a refused change those that came before.
    pub growths: Vec<Growth>,
    /// After a done make: the head of the new entry.
    pub made: Option<u16>,
    /// After a done change: the block of each slot, or 0.
    pub slots: Vec<usize>,
    /// After a done change: count, block and next of every anode of the free list and of the chains, and of every free one.
    pub anodes: BTreeMap<u16, (u16, u16, u16)>,
}

/// The lists, and the free anodes from 6 up.
pub(super) struct Lists {
    pub last_reserved: usize,
    /// Between anode 1 and anode 2.
    pub upper: Vec<Extent>,
    /// Anode 2 and those after it.
    pub lower: Vec<Extent>,
    /// By [`ENTRY`] and [`PARENT`].
    pub chains: [Vec<Extent>; 2],
    pub free: BTreeSet<usize>,
    pub slots: Vec<usize>,
    pub steps: Vec<Step>,
    pub growths: Vec<Growth>,
}

impl Lists {
    /// The lists of an accepted disk, with the chains of two heads, or none for 0.
    pub fn read(image: &[u8], entry: u16, parent: u16) -> Self {
        let disk = Disk { image, n: image.len() / 512 };
        let mut upper = extents(&disk, disk.next(1));
        let two = upper.iter().position(|extent| extent.anode == 2).expect("2 is on the free list");
        let lower = upper.split_off(two);
        Lists {
            last_reserved: disk.last_reserved(),
            upper,
            lower,
            chains: [entry, parent].map(|head| extents(&disk, usize::from(head))),
            free: (6..3_444).filter(|&a| disk.free(a)).collect(),
            slots: (0..42).map(|slot| disk.slot(slot)).collect(),
            steps: Vec::new(),
            growths: Vec::new(),
        }
    }

    /// What the lists come to, if the change was not refused by this number.
    pub fn outcome(self, result: Result<(), u32>) -> Outcome {
        let answer = result.err().unwrap_or(0);
        let (slots, anodes) = match answer {
            0 => (self.slots.clone(), self.anodes()),
            _ => (Vec::new(), BTreeMap::new()),
        };
        Outcome { answer, steps: self.steps, growths: self.growths, made: None, slots, anodes }
    }

    /// The first block of the first extent with blocks, of the lower side first or of the upper; and its anode, if that was
    /// its last one.
    pub fn first_block(&mut self, lower_first: bool) -> Option<(usize, Option<usize>)> {
        let has_blocks = |side: &[Extent]| side.iter().position(|extent| extent.count > 0);
        let (upper, lower) = (has_blocks(&self.upper), has_blocks(&self.lower));
        let side = match (upper, lower) {
            (None, None) => return None,
            (_, Some(_)) if lower_first || upper.is_none() => &mut self.lower,
            _ => &mut self.upper,
        };
        let place = has_blocks(side)?;
        let Extent { anode, start, count } = side[place];
        side[place] = Extent { anode, start: start + 1, count: count - 1 };
        if count > 1 {
            return Some((start, None));
        }
        if anode == 2 {
            side[place].start = 65_535;
        } else {
            side.remove(place);
            self.free.insert(anode);
        }
        Some((start, Some(anode)))
    }

    /// The lowest empty slot gets a block, as a directory would; nothing if no slot is empty or no block is free.
    pub fn grow(&mut self, need: Need) -> Option<()> {
        let slot = (0..42).find(|&slot| self.slots[slot] == 0)?;
        let (block, emptied) = self.first_block(true)?;
        self.slots[slot] = block;
        self.free.extend((0..82).map(|place| slot * 82 + place));
        self.growths.push(Growth { need, slot, block, emptied });
        Some(())
    }

    /// The lowest free anode, after growth if there is none before it; 28 if there is none at all.
    pub fn anode(&mut self, need: Need) -> Result<usize, u32> {
        if self.free.is_empty() {
            self.grow(need);
        }
        self.free.pop_first().ok_or(28)
    }

    /// The fields that the lists come to.
    fn anodes(&self) -> BTreeMap<u16, (u16, u16, u16)> {
        let one = Extent { anode: 1, start: 65_535, count: 0 };
        let free_list: Vec<Extent> = [one].iter().chain(&self.upper).chain(&self.lower).copied().collect();
        let mut anodes: BTreeMap<u16, (u16, u16, u16)> =
            self.free.iter().map(|&anode| (anode as u16, (0, 0, 0))).collect();
        for list in [&free_list, &self.chains[ENTRY], &self.chains[PARENT]] {
            for (place, extent) in list.iter().enumerate() {
                let next = list.get(place + 1).map_or(0, |extent| extent.anode);
                let fields = (extent.count as u16, extent.start as u16, next as u16);
                anodes.insert(extent.anode as u16, fields);
            }
        }
        anodes
    }
}

/// The anodes of a chain from this one on, with what they own.
fn extents(disk: &Disk, first: usize) -> Vec<Extent> {
    let mut list = Vec::new();
    let mut a = first;
    while a != 0 {
        list.push(Extent { anode: a, start: disk.block(a), count: disk.count(a) });
        a = disk.next(a);
    }
    list
}
