//! The seven kinds of blocks, counted from the image alone.

use super::layout::*;

/// How many blocks of each kind an accepted disk has.
#[derive(Clone, Copy, Debug, Default, PartialEq, Eq)]
pub struct Totals {
    pub free: usize,
    pub files: usize,
    pub directories: usize,
    pub anode_blocks: usize,
    pub start: usize,
    pub to_be_freed: usize,
    pub bad: usize,
}

impl Totals {
    pub fn sum(&self) -> usize {
        self.free
            + self.files
            + self.directories
            + self.anode_blocks
            + self.start
            + self.to_be_freed
            + self.bad
    }
}

/// Counts the blocks of an image that the check accepts; nothing for any other.
pub fn totals(image: &[u8]) -> Option<Totals> {
    let mut blocks = vec![0; disk_size(image)?];
    let mut anodes = vec![0; ANODES];
    if super::check(image, &mut blocks, &mut anodes) != 0 {
        return None;
    }
    let table = AnodeTable::read(image);
    let owned = |head: u16| table.chain(head).map(|(_, anode)| usize::from(anode.count)).sum::<usize>();
    let mut totals = Totals {
        free: owned(FREE_LIST),
        anode_blocks: used_slots(table.slots()).count(),
        start: 3,
        to_be_freed: owned(TO_BE_FREED),
        bad: owned(BAD_BLOCKS),
        ..Totals::default()
    };
    let mut reached = vec![ROOT_DIRECTORY];
    while let Some(directory) = reached.pop() {
        totals.directories += owned(directory);
        for number in table.chain_blocks(directory) {
            for entry in Entries::of(block(image, number)).flatten() {
                match entry.kind {
                    DIRECTORY => reached.push(entry.anode),
                    _ => totals.files += owned(entry.anode),
                }
            }
        }
    }
    Some(totals)
}
