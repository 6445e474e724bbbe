//! Safe changes by the words of 02, No. 8, on plain lists: which blocks are taken in which order, and what the anodes and the
//! slots come to. The table never grows.

use super::lists::{Extent, Lists, Outcome, ENTRY, PARENT};

/// A safe change of an accepted disk that passes 20 to 26.
#[derive(Clone, Copy, Debug)]
pub enum Safe {
    /// A new entry; the number of the parent's block where it goes, if one has room.
    Make { is_directory: bool, place: Option<u16> },
    /// All blocks of the entry's file anew, so many; and the parent's block that changes with its size, if it does.
    Anew { blocks: u64, place: Option<u16> },
    /// The entry goes, out of this block of its parent.
    Remove { place: u16 },
}

/// What a safe change comes to: besides the outcome, the blocks that it writes in order, the root the last.
pub fn safe(image: &[u8], entry: u16, parent: u16, change: Safe) -> (Outcome, Vec<u16>) {
    let mut work = Work { lists: Lists::read(image, entry, parent), taken: Vec::new(), old: Vec::new() };
    let result = work.run(change);
    let made = match change {
        Safe::Make { .. } if result.is_ok() => work.lists.chains[ENTRY].first().map(|head| head.anode as u16),
        _ => None,
    };
    let taken = work.taken.iter().map(|&block| block as u16).chain([2]).collect();
    (Outcome { made, ..work.lists.outcome(result) }, taken)
}

struct Work {
    lists: Lists,
    taken: Vec<usize>,
    old: Vec<usize>,
}

impl Work {
    fn run(&mut self, change: Safe) -> Result<(), u32> {
        let slots = self.lists.slots.iter().filter(|&&block| block != 0).count() as u64;
        let needed = slots
            + match change {
                Safe::Make { is_directory, .. } => 1 + u64::from(is_directory),
                Safe::Anew { blocks, place } => blocks + u64::from(place.is_some()),
                Safe::Remove { .. } => 1,
            };
        let sides = self.lists.upper.iter().chain(&self.lists.lower);
        if (sides.map(|extent| extent.count as u64).sum::<u64>()) < needed {
            return Err(27);
        }
        match change {
            Safe::Make { is_directory, place } => {
                let anode = self.lists.free.pop_first().ok_or(28u32)?;
                self.lists.chains[ENTRY] = vec![Extent { anode, start: 65_535, count: 0 }];
                if is_directory {
                    self.take(ENTRY, false)?;
                }
                match place {
                    Some(block) => self.displace(usize::from(block)),
                    None => self.take(PARENT, false)?,
                }
            }
            Safe::Anew { blocks, place } => {
                let head = self.clear(ENTRY);
                self.lists.free.remove(&head);
                self.lists.chains[ENTRY] = vec![Extent { anode: head, start: 65_535, count: 0 }];
                (0..blocks).try_for_each(|_| self.take(ENTRY, true))?;
                place.into_iter().for_each(|block| self.displace(usize::from(block)));
            }
            Safe::Remove { place } => {
                self.clear(ENTRY);
                self.displace(usize::from(place));
            }
        }
        for slot in 0..42 {
            if self.lists.slots[slot] != 0 {
                self.old.push(self.lists.slots[slot]);
                self.lists.slots[slot] = self.pick(false);
            }
        }
        self.old.sort_unstable();
        for block in std::mem::take(&mut self.old) {
            self.give(block)?;
        }
        Ok(())
    }

    /// A free block, for data or as directories look. There are enough of them.
    fn pick(&mut self, data: bool) -> usize {
        let (block, _) = self.lists.first_block(!data).expect("the blocks were counted");
        self.taken.push(block);
        block
    }

    fn take(&mut self, chain: usize, data: bool) -> Result<(), u32> {
        let block = self.pick(data);
        let last = self.lists.chains[chain].last_mut().expect("a chain has its head");
        if last.count == 0 {
            (last.start, last.count) = (block, 1);
        } else if data && last.start + last.count == block {
            last.count += 1;
        } else {
            let anode = self.lists.free.pop_first().ok_or(28u32)?;
            self.lists.chains[chain].push(Extent { anode, start: block, count: 1 });
        }
        Ok(())
    }

    /// All anodes of a chain are free from now on, and its blocks are old ones. Answers its head.
    fn clear(&mut self, chain: usize) -> usize {
        let list = std::mem::take(&mut self.lists.chains[chain]);
        self.lists.free.extend(list.iter().map(|extent| extent.anode));
        self.old.extend(list.iter().flat_map(|extent| extent.start..extent.start + extent.count));
        list[0].anode
    }

    /// A block of the parent takes a new place.
    fn displace(&mut self, old: usize) {
        let block = self.pick(false);
        self.old.push(old);
        let chain = self.lists.chains[PARENT].iter_mut();
        chain.filter(|extent| extent.start == old).for_each(|extent| extent.start = block);
    }

    /// One block goes back: beside the last one of its side, into it, or behind it.
    fn give(&mut self, block: usize) -> Result<(), u32> {
        let upper = block > self.lists.last_reserved;
        let side = if upper { &mut self.lists.upper } else { &mut self.lists.lower };
        match side.last_mut() {
            Some(last) if last.count == 0 => (last.start, last.count) = (block, 1),
            Some(last) if last.start + last.count == block => last.count += 1,
            Some(last) if block + 1 == last.start => (last.start, last.count) = (block, last.count + 1),
            _ => {
                let anode = self.lists.free.pop_first().ok_or(28u32)?;
                side.push(Extent { anode, start: block, count: 1 });
            }
        }
        Ok(())
    }
}
