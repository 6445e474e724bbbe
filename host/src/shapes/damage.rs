//! Damaged disks: an accepted image with a fault aimed at one refusal number.
//!
//! Each fault is chosen so that the image breaks the rule of its number and none of the rules that are tried
//! before, so the check must answer exactly that number. Number 2 is about the tables, not the image, and has no
//! fault here. Besides these there are disks with two faults, one of them a half-cleared anode or two names that look
//! alike, disks with names that look alike without a fault, and damage without an aim.

use super::faults::entries::entry_faults;
use super::faults::names::{alike_elsewhere, any_alike, nearly_alike};
use super::faults::{faults, wrong_length, Fault};
use crate::calls::tables;
use crate::model::layout::*;
use crate::model::{survey, Survey};
use crate::rng::Rng;

/// An entry of the disk; `place` is its first byte in the image, `name` and `comment` are lengths.
#[derive(Clone, Copy, Debug)]
pub(super) struct Named {
    pub place: usize,
    /// The directory that it is in.
    pub directory: u16,
    pub kind: u8,
    pub anode: u16,
    pub size: u32,
    pub name: usize,
    pub comment: usize,
}

impl Named {
    /// The block that it is in.
    pub fn block(&self) -> u16 {
        (self.place / BLOCK) as u16
    }
}

/// Where a fault is in the walk, seen from the later of two entries whose names look alike.
#[derive(Clone, Copy, Debug, PartialEq, Eq, PartialOrd, Ord)]
pub enum Place {
    Before,
    /// In that entry itself.
    There,
    Behind,
}

/// An image with two faults, one of them two names that look alike.
pub struct Mixed {
    pub image: Vec<u8>,
    /// Where the other fault is; one that is met before the walk is before, and 16 behind.
    pub place: Place,
    /// What the check must answer.
    pub answer: u32,
}

/// An accepted image, and what a fault needs to know of it.
pub struct Damager<'a> {
    pub(super) image: &'a [u8],
    pub(super) survey: Survey,
    pub(super) heads: Vec<u16>,
    /// By number, the predecessor of an anode, 0 where it has none.
    before: Vec<u16>,
    /// All entries in the order of the walk.
    pub(super) entries: Vec<Named>,
    /// All directories in the order of the walk.
    pub(super) directories: Vec<u16>,
}

impl<'a> Damager<'a> {
    /// Looks at an image; nothing if the check refuses it.
    pub fn new(image: &'a [u8]) -> Option<Self> {
        let (mut owners, mut heads) = tables(image);
        let survey = survey(image, &mut owners, &mut heads).ok()?;
        Some(Damager::surveyed(image, survey, heads))
    }

    /// Looks at an image that has the anodes and directories of this survey.
    fn surveyed(image: &'a [u8], survey: Survey, heads: Vec<u16>) -> Self {
        let mut before = vec![0; ANODES];
        for number in survey.table.existing().filter(|&number| survey.table[number].in_use()) {
            before[usize::from(survey.table[number].next)] = number;
        }
        before[0] = 0;
        let (entries, directories) = (Vec::new(), vec![ROOT_DIRECTORY]);
        let mut damager = Damager { image, survey, heads, before, entries, directories };
        let mut turn = 0;
        while let Some(&directory) = damager.directories.get(turn) {
            damager.meet(directory);
            turn += 1;
        }
        damager
    }

    fn meet(&mut self, directory: u16) {
        for number in self.survey.table.chain_blocks(directory) {
            for entry in Entries::of(block(self.image, number)).flatten() {
                if entry.kind == DIRECTORY {
                    self.directories.push(entry.anode);
                }
                self.entries.push(Named {
                    place: usize::from(number) * BLOCK + entry.at,
                    directory,
                    kind: entry.kind,
                    anode: entry.anode,
                    size: entry.size,
                    name: entry.name.len(),
                    comment: entry.comment.len(),
                });
            }
        }
    }

    /// An image for which the check must answer this number; nothing if this disk cannot be damaged so.
    pub fn damage(&self, number: u32, rng: &mut Rng) -> Option<Vec<u8>> {
        if number == 1 {
            return Some(wrong_length(self.image, rng));
        }
        let faults = faults(number);
        let first = rng.below(faults.len());
        let mut image = self.image.to_vec();
        let found = (0..faults.len()).any(|turn| {
            let fault = faults[(first + turn) % faults.len()];
            fault(self, &mut image, rng).is_some()
        });
        found.then_some(image)
    }

    /// The image with two faults: one aimed at this number, from 6 up, and a half-cleared anode from 2 up that the first
    /// one left alone. The check must answer 6 where that was the aim, else 7.
    pub fn damage_and_half_clear(&self, number: u32, rng: &mut Rng) -> Option<Vec<u8>> {
        let mut image = self.damage(number, rng)?;
        let table = AnodeTable::read(&image);
        let left_alone = |&number: &u16| number >= RESERVED && table[number] == self.anode(number);
        let candidates: Vec<u16> = table.existing().filter(left_alone).collect();
        self.half_clear(&mut image, *rng.pick(&candidates)?, rng);
        Some(image)
    }

    /// The image with two faults: one aimed at this number, from 3 to 16, and two names that look alike. Of the numbers 12
    /// to 15 that one is in an entry before the later of the two, in this, or behind it, or of 12 in a block.
    pub fn damage_and_alike(&self, number: u32, rng: &mut Rng) -> Option<Mixed> {
        let mut image = self.image.to_vec();
        let later = any_alike(self, &mut image, rng)?;
        // The entries have moved, and nothing else.
        let moved = Damager::surveyed(&image, self.survey.clone(), self.heads.clone());
        match number {
            3..=11 => Some(Mixed { image: moved.damage(number, rng)?, place: Place::Before, answer: number }),
            12 if rng.percent(30) => moved.head_spoiled(later, rng),
            12..=15 => moved.entry_spoiled(number, later, rng),
            _ => {
                let free = moved.any_free(rng, FIRST_USER)?;
                let mut image = image.clone();
                moved.put_anode(&mut image, free, Anode::empty(0));
                Some(Mixed { image, place: Place::Behind, answer: 17 })
            }
        }
    }

    /// A fault aimed at this number in an entry before the later of two that look alike, in this, or behind it.
    fn entry_spoiled(&self, number: u32, later: usize, rng: &mut Rng) -> Option<Mixed> {
        let (place, range) = match rng.below(3) {
            0 => (Place::Before, 0..later),
            1 => (Place::There, later..later + 1),
            _ => (Place::Behind, later + 1..self.entries.len()),
        };
        let spoiled = range.start + rng.below(range.len());
        let entry = *self.entries.get(spoiled).filter(|_| !range.is_empty())?;
        // An entry before it, for 14, which is a fault of the later one.
        let known = if number == 14 { rng.pick(&self.entries[..spoiled]) } else { None };
        let (survey, heads, before) = (self.survey.clone(), self.heads.clone(), self.before.clone());
        let entries = known.copied().into_iter().chain([entry]).collect();
        let narrowed = Damager { image: self.image, survey, heads, before, entries, directories: Vec::new() };
        let mut image = self.image.to_vec();
        let faults: &[Fault] = entry_faults(number);
        (0..8).find_map(|_| rng.pick(faults)?(&narrowed, &mut image, rng))?;
        let first = place == Place::Before || (place == Place::There && number == 12);
        Some(Mixed { image, place, answer: if first { number } else { 17 } })
    }

    /// The head of a directory block spoiled: before the later of two entries that look alike if it is its block or one that
    /// the walk meets before it.
    fn head_spoiled(&self, later: usize, rng: &mut Rng) -> Option<Mixed> {
        let blocks: Vec<u16> =
            self.directories.iter().flat_map(|&head| self.survey.table.chain_blocks(head)).collect();
        let spoiled = rng.below(blocks.len());
        let own = blocks.iter().position(|&number| number == self.entries[later].block())?;
        let mut image = self.image.to_vec();
        block_mut(&mut image, blocks[spoiled])[[0, 1, DIRECTORY_OWNER, DIRECTORY_OWNER + 1][rng.below(4)]] ^=
            0x40;
        let (place, answer) = if spoiled <= own { (Place::Before, 12) } else { (Place::Behind, 17) };
        Some(Mixed { image, place, answer })
    }

    /// The image with a name that looks like one of another directory, which the check accepts.
    pub fn alike_elsewhere(&self, rng: &mut Rng) -> Option<Vec<u8>> {
        let mut image = self.image.to_vec();
        alike_elsewhere(self, &mut image, rng).map(|()| image)
    }

    /// The image with a name that only nearly looks like another of its directory, which the check accepts.
    pub fn nearly_alike(&self, rng: &mut Rng) -> Option<Vec<u8>> {
        let mut image = self.image.to_vec();
        nearly_alike(self, &mut image, rng).map(|()| image)
    }

    /// The image with some bytes of the root block, anode blocks and directory blocks changed at random.
    pub fn with_random_bytes(&self, rng: &mut Rng) -> Vec<u8> {
        let mut image = self.image.to_vec();
        for _ in 0..rng.within(1..=4) {
            let start = usize::from(self.any_examined_block(rng)) * BLOCK;
            let byte = &mut image[start + rng.below(BLOCK)];
            *byte = match rng.below(3) {
                0 => rng.byte(),
                1 => *byte ^ (1 << rng.below(8)),
                _ => byte.wrapping_add(1),
            };
        }
        image
    }

    fn any_examined_block(&self, rng: &mut Rng) -> u16 {
        let anode_blocks = self.anode_blocks();
        let directory = rng.pick(&self.directories).copied().unwrap_or(ROOT_DIRECTORY);
        let directory_blocks: Vec<u16> = self.survey.table.chain_blocks(directory).collect();
        let found = match rng.below(5) {
            0 => None,
            1 | 2 => rng.pick(&anode_blocks),
            _ => rng.pick(&directory_blocks),
        };
        found.copied().unwrap_or(ROOT_BLOCK)
    }

    /// The image with some fields of anodes and entries set to numbers that have a meaning elsewhere.
    pub fn with_misplaced_numbers(&self, rng: &mut Rng) -> Vec<u8> {
        let mut image = self.image.to_vec();
        for _ in 0..rng.within(1..=3) {
            let value = self.telling_number(rng);
            match rng.pick(&self.entries) {
                Some(entry) if rng.percent(30) => {
                    let field = [ENTRY_ANODE, ENTRY_SIZE + 2][rng.below(2)];
                    put_word(&mut image, entry.place + field, value);
                }
                _ => {
                    let existing: Vec<u16> = self.survey.table.existing().collect();
                    let number = match rng.percent(70) {
                        true => self.any_in_use(rng, |_, _| true).unwrap_or(0),
                        false => rng.pick(&existing).copied().unwrap_or(0),
                    };
                    let at = self.anode_place(number) + 2 * rng.below(3);
                    put_word(&mut image, at, value);
                }
            }
        }
        image
    }

    /// A number that has a meaning on this disk, or any.
    fn telling_number(&self, rng: &mut Rng) -> u16 {
        let table = &self.survey.table;
        let anode = self.any_in_use(rng, |_, _| true).unwrap_or(0);
        match rng.below(10) {
            0 => anode,
            1 => table[anode].next,
            2 => table[anode].block,
            3 => table[anode].end() as u16,
            4 => self.survey.blocks as u16,
            5 => self.survey.last_reserved,
            6 => self.survey.last_reserved + 1,
            7 => rng.within16(0..=6),
            8 => rng.within16(0..=90),
            _ => rng.word(),
        }
    }

    // What the faults ask for.

    pub(super) fn anode_blocks(&self) -> Vec<u16> {
        used_slots(self.survey.table.slots()).map(|(_, number)| number).collect()
    }

    /// The place of an existing anode in the image.
    pub(super) fn anode_place(&self, number: u16) -> usize {
        let number = usize::from(number);
        let block = usize::from(self.survey.table.slots()[number / ANODES_IN_BLOCK]);
        block * BLOCK + FIRST_ANODE + (number % ANODES_IN_BLOCK) * ANODE_BYTES
    }

    pub(super) fn put_anode(&self, image: &mut [u8], number: u16, anode: Anode) {
        put_anode(image, self.anode_place(number), anode);
    }

    pub(super) fn put_count(&self, image: &mut [u8], number: u16, count: u16) {
        self.put_anode(image, number, Anode { count, ..self.anode(number) });
    }

    pub(super) fn put_block(&self, image: &mut [u8], number: u16, block: u16) {
        self.put_anode(image, number, Anode { block, ..self.anode(number) });
    }

    pub(super) fn put_next(&self, image: &mut [u8], number: u16, next: u16) {
        self.put_anode(image, number, Anode { next, ..self.anode(number) });
    }

    /// Makes the block field 0, but leaves or sets something in the count, the next, or both.
    pub(super) fn half_clear(&self, image: &mut [u8], number: u16, rng: &mut Rng) {
        let Anode { count, next, .. } = self.anode(number);
        let count = if count != 0 && rng.percent(50) { count } else { rng.within16(1..=65_535) };
        let next = match rng.below(3) {
            0 if next != 0 => next,
            1 => rng.within16(1..=90),
            _ => rng.within16(1..=65_535),
        };
        let left = [Anode::new(count, 0, 0), Anode::new(0, 0, next), Anode::new(count, 0, next)];
        self.put_anode(image, number, left[rng.below(3)]);
    }

    pub(super) fn anode(&self, number: u16) -> Anode {
        self.survey.table[number]
    }

    /// The disk's size in blocks, which fits into two bytes.
    pub(super) fn size16(&self) -> u16 {
        self.survey.blocks as u16
    }

    /// One of the anodes in use (not 0) that fit.
    pub(super) fn any_in_use(&self, rng: &mut Rng, fits: impl Fn(u16, Anode) -> bool) -> Option<u16> {
        let table = &self.survey.table;
        let fitting: Vec<u16> = table
            .existing()
            .filter(|&number| number != 0 && table[number].in_use() && fits(number, table[number]))
            .collect();
        rng.pick(&fitting).copied()
    }

    /// One of the anodes from 6 up that end a chain of several, and fit.
    pub(super) fn any_tail(&self, rng: &mut Rng, fits: impl Fn(Anode) -> bool) -> Option<u16> {
        self.any_in_use(rng, |number, anode| {
            number >= FIRST_USER && anode.next == 0 && self.predecessor(number).is_some() && fits(anode)
        })
    }

    /// One of the free anodes from this number up.
    pub(super) fn any_free(&self, rng: &mut Rng, from: u16) -> Option<u16> {
        let table = &self.survey.table;
        let free: Vec<u16> =
            table.existing().filter(|&number| number >= from && !table[number].in_use()).collect();
        rng.pick(&free).copied()
    }

    /// A number from 6 up of no existing anode.
    pub(super) fn any_missing(&self, rng: &mut Rng) -> u16 {
        for _ in 0..8 {
            let number = rng.within16(FIRST_USER..=ANODES as u16);
            if !self.survey.table.exists(number) {
                return number;
            }
        }
        rng.within16(ANODES as u16..=65_535)
    }

    pub(super) fn predecessor(&self, number: u16) -> Option<u16> {
        Some(self.before[usize::from(number)]).filter(|&before| before != 0)
    }

    pub(super) fn on_free_list(&self, number: u16) -> bool {
        self.heads[usize::from(number)] == FREE_LIST
    }

    /// The sides of the free list: the anodes between 1 and 2, and those from 2 on.
    pub(super) fn sides(&self) -> (Vec<u16>, Vec<u16>) {
        let list: Vec<u16> = self.survey.table.chain(FREE_LIST).map(|(number, _)| number).skip(1).collect();
        let place = list.iter().position(|&number| number == RESERVED).unwrap_or(list.len());
        (list[..place].to_vec(), list[place..].to_vec())
    }

    /// One of these anodes that has blocks.
    pub(super) fn with_blocks(&self, numbers: Vec<u16>, rng: &mut Rng) -> Option<u16> {
        let held: Vec<u16> = numbers.into_iter().filter(|&number| self.anode(number).count > 0).collect();
        rng.pick(&held).copied()
    }

    /// The first byte in the image of some block of some directory that fits.
    pub(super) fn any_directory_block(&self, rng: &mut Rng, fits: impl Fn(u16) -> bool) -> Option<usize> {
        let fitting: Vec<u16> = self.directories.iter().copied().filter(|&head| fits(head)).collect();
        let head = *rng.pick(&fitting)?;
        let blocks: Vec<u16> = self.survey.table.chain_blocks(head).collect();
        rng.pick(&blocks).map(|&number| usize::from(number) * BLOCK)
    }

    /// What an entry is called.
    pub(super) fn name(&self, entry: Named) -> &'a [u8] {
        &self.image[entry.place + ENTRY_NAME..][..entry.name]
    }

    pub(super) fn any_entry(&self, rng: &mut Rng) -> Option<Named> {
        rng.pick(&self.entries).copied()
    }

    pub(super) fn any_file(&self, rng: &mut Rng) -> Option<Named> {
        let files: Vec<Named> = self.entries.iter().copied().filter(|entry| entry.kind == FILE).collect();
        rng.pick(&files).copied()
    }
}
