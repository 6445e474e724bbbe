//! The disks that histories start from.

use crate::model::layout::SLOTS;
use crate::rng::Rng;
use crate::shapes::{disk_blocks, formatted, shaped, Recipe, Shaped};
use crate::tree::Tree;

/// What a disk is like before the first call.
#[derive(Clone, Copy, Debug)]
pub enum Start {
    /// Empty, from format.
    Formatted,
    /// Accepted, of any shape that the rules allow.
    Shaped,
    /// No anode is free, or next to none.
    FullAnodes,
    /// No block is free, or next to none.
    FullBlocks,
    /// Files with empty anodes and across last reserved, and at most three anodes to spare. The table has one block or two,
    /// and grows as long as blocks are free.
    FewAnodes,
    /// The same with at most one to spare, and with all slots used, so that the table cannot grow.
    FullSlots,
    /// Half of the blocks are free, and free space and files are in many pieces; at times few anodes are free.
    Roomy,
    /// 1,000 to 3,000 blocks.
    Larger,
    /// Up to 65,535 blocks.
    Largest,
}

impl Start {
    /// Those of at most 400 blocks.
    pub const SMALL: [Start; 6] = [
        Start::Formatted,
        Start::Shaped,
        Start::FullAnodes,
        Start::FullBlocks,
        Start::FewAnodes,
        Start::FullSlots,
    ];

    pub fn disk(self, rng: &mut Rng) -> Shaped {
        match self {
            Start::Formatted => {
                let blocks = disk_blocks(400, rng);
                Shaped { image: formatted(blocks, rng), tree: Tree::default() }
            }
            Start::Shaped => {
                let blocks = disk_blocks(300, rng);
                shaped(&Recipe::random(blocks, rng), rng)
            }
            Start::FullAnodes => shaped(&full_anodes(rng), rng),
            Start::FullBlocks => shaped(&full_blocks(rng), rng),
            Start::FewAnodes => {
                let slots = if rng.percent(80) { 1 } else { 2 };
                shaped(&few_anodes(slots, 3, rng), rng)
            }
            Start::FullSlots => shaped(&few_anodes(SLOTS, 1, rng), rng),
            Start::Roomy => shaped(&roomy(rng), rng),
            Start::Larger => {
                let blocks = rng.within(1_000..=3_000);
                shaped(&many_files(blocks, rng), rng)
            }
            Start::Largest => largest(rng),
        }
    }
}

fn full_anodes(rng: &mut Rng) -> Recipe {
    let blocks = rng.within(30..=200);
    Recipe {
        slots: 1,
        empties: usize::MAX,
        directories: rng.below(8),
        files: rng.below(12),
        free_percent: [20, 50][rng.below(2)],
        cuts: rng.below(60),
        ..Recipe::random(blocks, rng)
    }
}

fn full_blocks(rng: &mut Rng) -> Recipe {
    let blocks = rng.within(8..=80);
    Recipe { files: 1 + rng.below(8), free_percent: rng.below(6), ..Recipe::random(blocks, rng) }
}

fn roomy(rng: &mut Rng) -> Recipe {
    let blocks = rng.within(30..=120);
    Recipe {
        slots: rng.within(1..=3),
        directories: rng.below(5),
        files: 1 + rng.below(6),
        cuts: rng.below(40),
        empties: rng.below(8),
        spare: if rng.percent(50) { Some(rng.below(12)) } else { None },
        free_percent: [40, 60, 80][rng.below(3)],
        ..Recipe::random(blocks, rng)
    }
}

/// Long extents, so that one of a file often crosses last reserved. Many anode blocks are mostly beside each other and up to
/// there, for they would cut all others short.
fn few_anodes(slots: usize, spare: usize, rng: &mut Rng) -> Recipe {
    let others = rng.within(11..=59);
    let blocks = slots + others;
    Recipe {
        last_reserved: (slots + rng.within(others / 4..=others * 3 / 4)) as u16,
        slots,
        directories: rng.below(4),
        files: 1 + rng.below(3),
        cuts: rng.below(12),
        empties: rng.below(8),
        spare: Some(rng.within(0..=spare)),
        free_percent: [10, 30, 50][rng.below(3)],
        scattered: rng.percent(if slots == SLOTS { 10 } else { 70 }),
        ..Recipe::random(blocks, rng)
    }
}

fn many_files(blocks: usize, rng: &mut Rng) -> Recipe {
    Recipe { files: 80, directories: 20, cuts: 400, slots: 8, ..Recipe::random(blocks, rng) }
}

fn largest(rng: &mut Rng) -> Shaped {
    let blocks = if rng.percent(20) { rng.within(32_768..=65_535) } else { 65_535 };
    match rng.below(4) {
        0 => Shaped { image: formatted(blocks, rng), tree: Tree::default() },
        1 => shaped(&Recipe::fragmented(blocks), rng),
        2 => shaped(&Recipe::small_files(blocks), rng),
        _ => shaped(&many_files(blocks, rng), rng),
    }
}
