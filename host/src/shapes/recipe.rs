//! What a shaped disk should be like.

use crate::model::layout::SLOTS;
use crate::rng::Rng;

/// How runs of blocks are dealt to files.
#[derive(Clone, Copy, Debug, PartialEq, Eq)]
pub enum Deal {
    /// Each to any file.
    Random,
    /// To one file after the other.
    Round,
}

/// What a shaped disk should be like. Directories and files are fewer where the disk is too small for them.
#[derive(Clone, Debug)]
pub struct Recipe {
    /// N, at least 4 + `slots`.
    pub blocks: usize,
    pub last_reserved: u16,
    /// Used slots, 1 to 42.
    pub slots: usize,
    /// Directories besides the root.
    pub directories: usize,
    pub files: usize,
    /// Cuts of the space between system and directory blocks into more runs.
    pub cuts: usize,
    /// Empty anodes strewn into chains; as many as there are anodes for, if it is too many.
    pub empties: usize,
    /// If told, all other anodes but so many hang empty on the chain of 4.
    pub spare: Option<usize>,
    /// How many runs in a hundred stay free.
    pub free_percent: usize,
    /// How many runs in a hundred go to the chains of 3 and 4.
    pub special_percent: usize,
    pub deal: Deal,
    /// Blocks, slots and anodes in any order, not upward.
    pub scattered: bool,
    /// Junk in every byte that no rule examines.
    pub junk: bool,
    /// Longest name and comment, at least 1 and 0.
    pub name: usize,
    pub comment: usize,
}

impl Recipe {
    /// Any recipe for a disk of this many blocks, 5 or more.
    pub fn random(blocks: usize, rng: &mut Rng) -> Self {
        let most_slots = (blocks - 4).min(SLOTS);
        let slots = match rng.below(4) {
            0 | 1 => 1,
            2 => rng.within(1..=most_slots.min(3)),
            _ => rng.within(1..=most_slots),
        };
        let last_reserved = match rng.below(5) {
            0 => 2,
            1 => blocks - 1,
            _ => rng.within(2..=blocks - 1),
        };
        let (directories, files) = match rng.below(4) {
            0 => (0, rng.below(4)),
            1 => (rng.below(4), rng.below(12)),
            2 => (rng.below(12), rng.below(12)),
            _ => (rng.below(30), rng.below(60)),
        };
        let cuts = match rng.below(3) {
            0 => 0,
            1 => rng.below(12),
            _ => rng.below(200),
        };
        let empties = match rng.below(4) {
            0 => 0,
            1 => rng.below(8),
            2 => rng.below(80),
            _ => usize::MAX,
        };
        let (name, comment) = match rng.below(3) {
            0 => (1 + rng.below(3), 0),
            1 => (12, 8),
            _ => (107, 79),
        };
        Recipe {
            blocks,
            last_reserved: last_reserved as u16,
            slots,
            directories,
            files,
            cuts,
            empties,
            spare: None,
            free_percent: *rng.pick(&[0, 10, 40, 80, 100]).unwrap_or(&40),
            special_percent: *rng.pick(&[0, 5, 30]).unwrap_or(&5),
            deal: if rng.percent(50) { Deal::Random } else { Deal::Round },
            scattered: rng.percent(70),
            junk: rng.percent(80),
            name,
            comment,
        }
    }

    /// A disk full of files of some blocks each in nested directories.
    pub fn small_files(blocks: usize) -> Self {
        Recipe {
            blocks,
            last_reserved: (blocks / 30) as u16,
            slots: SLOTS,
            directories: 120,
            files: 3_000,
            cuts: 2_999,
            empties: 0,
            spare: None,
            free_percent: 0,
            special_percent: 0,
            deal: Deal::Round,
            scattered: false,
            junk: false,
            name: 8,
            comment: 0,
        }
    }

    /// A disk with next to as many files in its root as there are anodes for, none of which has a block.
    pub fn many_names(blocks: usize) -> Self {
        Recipe { directories: 0, files: 3_250, cuts: 0, free_percent: 100, ..Recipe::small_files(blocks) }
    }

    /// A disk in as many pieces as there are anodes for.
    pub fn fragmented(blocks: usize) -> Self {
        Recipe {
            blocks,
            last_reserved: (blocks / 30) as u16,
            slots: SLOTS,
            directories: 40,
            files: 400,
            cuts: 2_500,
            empties: usize::MAX,
            spare: None,
            free_percent: 25,
            special_percent: 4,
            deal: Deal::Random,
            scattered: true,
            junk: true,
            name: 20,
            comment: 10,
        }
    }
}
