//! Giving back by the words of 02, No. 3, with growth (No. 6), on plain lists.

use std::collections::BTreeSet;

use super::lists::{Extent, Lists, Need, Outcome, ENTRY};

/// What goes back of an extent.
#[derive(Clone, Copy, Debug, PartialEq, Eq, PartialOrd, Ord)]
pub enum Given {
    /// All of it, and its anode leaves the chain.
    Whole,
    /// Its tail, where the new end of the file lies in it.
    CutPiece,
    /// All of it, but its anode is the head, which stays.
    KeptHead,
}

/// Which of its runs this is.
#[derive(Clone, Copy, Debug, PartialEq, Eq, PartialOrd, Ord)]
pub enum Part {
    /// The only one.
    All,
    /// The upper of two, where it crosses last reserved.
    Upper,
    /// The lower of two.
    Lower,
}

/// Where a run went.
#[derive(Clone, Copy, Debug, PartialEq, Eq, PartialOrd, Ord)]
pub enum Way {
    /// After the end of the last anode.
    JoinedAfter,
    /// Before the start of the last anode.
    JoinedBefore,
    /// Into the empty last anode.
    Filled,
    /// Behind the last anode, in the extent's own.
    OwnAnode,
    /// Behind the last anode, in the lowest free one.
    LowestFree,
    /// Nowhere: 28.
    Refused,
}

/// One run that goes back.
#[derive(Clone, Copy, Debug, PartialEq, Eq, PartialOrd, Ord)]
pub struct Step {
    pub given: Given,
    pub part: Part,
    pub way: Way,
    /// Does it get an anode that this call has zeroed, and that was not on the free list before?
    pub reuses: bool,
    /// Did the table grow for it?
    pub grew: bool,
}

/// Gives back the last blocks of a chain that keeps its head, on an accepted disk.
pub fn shorten(image: &[u8], head: u16, blocks: usize) -> Outcome {
    let mut giving = Giving::new(image, head);
    let result = giving.give(blocks, true);
    giving.lists.outcome(result)
}

/// Gives back all blocks of a chain that goes, and then its anodes that did not go with them.
pub fn dissolve(image: &[u8], head: u16) -> Outcome {
    let mut giving = Giving::new(image, head);
    let blocks = giving.lists.chains[ENTRY].iter().map(|extent| extent.count).sum();
    let result = giving.give(blocks, false);
    let rest: Vec<Extent> = giving.lists.chains[ENTRY].drain(..).collect();
    giving.lists.free.extend(rest.iter().map(|extent| extent.anode));
    giving.lists.outcome(result)
}

/// The lists, and which anodes of the chain were zeroed.
struct Giving {
    lists: Lists,
    zeroed: BTreeSet<usize>,
}

impl Giving {
    fn new(image: &[u8], head: u16) -> Self {
        Giving { lists: Lists::read(image, head, 0), zeroed: BTreeSet::new() }
    }

    /// Extents go last first; 28 if a run finds no anode.
    fn give(&mut self, mut blocks: usize, keeps_head: bool) -> Result<(), u32> {
        while blocks > 0 {
            let chain = &mut self.lists.chains[ENTRY];
            let place = chain.iter().rposition(|extent| extent.count > 0).expect("there are blocks left");
            let extent = chain[place];
            let count = extent.count.min(blocks);
            let given = match (count < extent.count, place == 0 && keeps_head) {
                (true, _) => Given::CutPiece,
                (false, true) => Given::KeptHead,
                (false, false) => Given::Whole,
            };
            match given {
                Given::CutPiece => chain[place].count -= count,
                Given::KeptHead => chain[place] = Extent { start: 65_535, count: 0, ..extent },
                Given::Whole => drop(chain.remove(place)),
            }
            self.give_runs(given, Extent { start: extent.start + extent.count - count, count, ..extent })?;
            blocks -= count;
        }
        Ok(())
    }

    /// One that crosses last reserved goes as two runs, the upper first.
    fn give_runs(&mut self, given: Given, extent: Extent) -> Result<(), u32> {
        let limit = self.lists.last_reserved;
        let above = (0..extent.count).filter(|place| extent.start + place > limit).count();
        let below = extent.count - above;
        if above == 0 || below == 0 {
            return self.give_run(given, Part::All, extent);
        }
        self.give_run(given, Part::Upper, Extent { start: limit + 1, count: above, ..extent })?;
        self.give_run(given, Part::Lower, Extent { count: below, ..extent })
    }

    fn give_run(&mut self, given: Given, part: Part, run: Extent) -> Result<(), u32> {
        let own = given == Given::Whole && part != Part::Upper;
        let mut joined = self.join_or_fill(run);
        let needed = joined.is_none() && !own && self.lists.free.is_empty();
        let grew = needed && self.lists.grow(Need::Run).is_some();
        if grew {
            joined = self.join_or_fill(run);
        }
        let (way, anode) = match joined {
            Some(way) => {
                if own {
                    self.lists.free.insert(run.anode);
                    self.zeroed.insert(run.anode);
                }
                (way, None)
            }
            None if own => (Way::OwnAnode, Some(run.anode)),
            None => match self.lists.free.pop_first() {
                Some(anode) => (Way::LowestFree, Some(anode)),
                None => (Way::Refused, None),
            },
        };
        let reuses = anode.is_some_and(|anode| self.zeroed.contains(&anode));
        self.lists.steps.push(Step { given, part, way, reuses, grew });
        self.side(run).extend(anode.map(|anode| Extent { anode, ..run }));
        match way {
            Way::Refused => Err(28),
            _ => Ok(()),
        }
    }

    fn side(&mut self, run: Extent) -> &mut Vec<Extent> {
        if run.start > self.lists.last_reserved {
            &mut self.lists.upper
        } else {
            &mut self.lists.lower
        }
    }

    /// How a run joins or fills the last anode of its side, if it does. Anode 1 is in neither list.
    fn join_or_fill(&mut self, run: Extent) -> Option<Way> {
        let last = self.side(run).last_mut()?;
        let way = if last.count == 0 {
            last.start = run.start;
            Way::Filled
        } else if last.start + last.count == run.start {
            Way::JoinedAfter
        } else if run.start + run.count == last.start {
            last.start = run.start;
            Way::JoinedBefore
        } else {
            return None;
        };
        last.count += run.count;
        Some(way)
    }
}
