//! How many anodes a disk has, and how many more it can get.

use crate::calls::Library;
use crate::disk::{Disk, Owner};

/// The most blocks that hold anodes.
pub const MOST_ANODE_BLOCKS: usize = 42;
/// The anodes in one of them.
const IN_BLOCK: usize = 82;
/// Anode 0, which belongs to nobody, and 3 and 4, which are kept for blocks to be freed and bad blocks.
const KEPT: [usize; 3] = [0, 3, 4];

/// The anodes of a disk. Each file, each directory and each piece of one needs one.
#[derive(Clone, Copy, Debug, PartialEq, Eq)]
pub struct Anodes {
    /// The blocks that hold anodes, at most [`MOST_ANODE_BLOCKS`].
    pub blocks: usize,
    /// Those in use, but for anode 0.
    pub in_use: usize,
    /// Those that files and directories can still get without another block.
    pub free: usize,
    /// The blocks that can still be taken for anodes: one for each that is missing, as far as blocks are free.
    pub more_blocks: usize,
}

impl Anodes {
    /// All that are there: in use, free, and those that are kept.
    pub fn existing(&self) -> usize {
        self.blocks * IN_BLOCK
    }

    /// The anodes of the blocks that can still be taken.
    pub fn to_come(&self) -> usize {
        self.more_blocks * IN_BLOCK
    }
}

impl<L: Library> Disk<L> {
    /// How many anodes there are, by the tables as the last call left them. After a damage number they say nothing.
    pub fn anodes(&self) -> Anodes {
        let count = |owner| self.owners().filter(|&other| other == owner).count();
        let (blocks, free_blocks) = (count(Owner::AnodeBlock), count(Owner::Free));
        let in_use = self.heads().iter().filter(|&&head| head != 0).count();
        let kept = KEPT.iter().filter(|&&number| self.heads()[number] == 0).count();
        Anodes {
            blocks,
            in_use,
            free: (blocks * IN_BLOCK).saturating_sub(in_use + kept),
            more_blocks: MOST_ANODE_BLOCKS.saturating_sub(blocks).min(free_blocks),
        }
    }
}

#[cfg(test)]
mod tests {
    use super::*;
    use crate::calls::ROOT;
    use crate::disk::{Format, New};
    use crate::model::Model;

    #[test]
    fn anodes_are_counted_and_come_as_they_are_needed() {
        let mut disk = Disk::<Model>::format(60, &Format::new(50, 1, b"disk")).expect("it is formatted");
        disk.check().expect("it is sound");
        // 1, 2, 5 and 6 are in use; 0, 3 and 4 are kept. 55 blocks are free.
        assert_eq!(disk.anodes(), Anodes { blocks: 1, in_use: 4, free: 75, more_blocks: 41 });
        assert_eq!((disk.anodes().existing(), disk.anodes().to_come()), (82, 3_362));
        let mut made = 0;
        while disk.anodes().blocks == 1 {
            disk.make(ROOT, &New::file(format!("{made}").as_bytes())).expect("it is made");
            made += 1;
        }
        // The directory has three blocks more, each with an anode; the 74th file was one too many for one anode block.
        assert_eq!(made, 74);
        assert_eq!(disk.anodes(), Anodes { blocks: 2, in_use: 81, free: 80, more_blocks: 40 });
        assert_eq!(disk.summary().map(|summary| summary.free), Ok(51));
        // As far as blocks are free.
        disk.resize(ROOT, b"0", 39 * 512).expect("there is room");
        assert_eq!(disk.anodes().more_blocks, 12);
    }
}
