//! Accepted disks that format never makes.
//!
//! A plan gives every block of the disk an owner: the start blocks, anode blocks anywhere, directory blocks
//! anywhere, and the rest cut into runs that are dealt to the free list, the files and the chains of 3 and 4.
//! Then the anodes are numbered, empty ones strewn in, and all is written over junk, so that every byte that no
//! rule examines holds anything.

use std::collections::BTreeMap;

use super::chains::{draw_chains, hang, strew, Chains, Extent};
use super::outline::{Draft, Item, Outline};
use super::recipe::Recipe;
use super::writer::Writer;
use crate::calls::ROOT;
use crate::disk::{Entry, Kind};
use crate::model::layout::{ANODES_IN_BLOCK, BLOCK, SLOTS};
use crate::rng::Rng;
use crate::tree::{Directory, Node, Tree};

/// A shaped disk, and what it holds.
#[derive(Clone, Debug)]
pub struct Shaped {
    pub image: Vec<u8>,
    pub tree: Tree,
}

/// Builds a disk by a recipe, with fewer directories and files if they do not fit.
pub fn shaped(recipe: &Recipe, rng: &mut Rng) -> Shaped {
    let (mut directories, mut files) = (recipe.directories, recipe.files);
    loop {
        let outline = Outline::draw(recipe, directories, files, rng);
        if let Some(plan) = Plan::draw(recipe, outline, rng) {
            return plan.build(recipe, rng);
        }
        assert!(directories + files > 0, "no disk fits {recipe:?}");
        directories /= 2;
        files /= 2;
    }
}

/// Every block with its owner.
struct Plan {
    outline: Outline,
    slots: [u16; SLOTS],
    directory_blocks: Vec<Vec<u16>>,
    chains: Chains,
}

impl Plan {
    /// Gives every block an owner; nothing if blocks or anodes do not suffice.
    fn draw(recipe: &Recipe, outline: Outline, rng: &mut Rng) -> Option<Plan> {
        let mut free = FreeBlocks::new(recipe, rng);
        let slots = draw_slots(recipe, &mut free, rng)?;
        let directory_blocks: Option<Vec<Vec<u16>>> = outline
            .blocks
            .iter()
            .map(|blocks| blocks.iter().map(|_| free.take()).collect::<Option<Vec<u16>>>())
            .collect();
        let directory_blocks = directory_blocks?;

        // The root's first block is held by anode 5.
        let for_directories = outline.directory_blocks() - 1;
        let pool = (recipe.slots * ANODES_IN_BLOCK - 6).checked_sub(for_directories)?;
        let mut chains = draw_chains(recipe, &free.intervals(), outline.files, pool, rng)?;
        let spare = pool - chains.anodes();
        strew(&mut chains, recipe.empties.min(spare), rng);
        if let Some(spare) = recipe.spare {
            hang(&mut chains, pool.saturating_sub(spare), rng);
        }
        Some(Plan { outline, slots, directory_blocks, chains })
    }

    fn build(&self, recipe: &Recipe, rng: &mut Rng) -> Shaped {
        let mut disk = Writer::new(recipe, &self.slots, rng);
        disk.chain(Some(1), &[Extent { start: 65_535, count: 0 }]);
        let upper = disk.chain(None, &self.chains.upper);
        let lower = disk.chain(Some(2), &self.chains.lower);
        disk.link(1, upper.first().copied().unwrap_or(2));
        if let Some(&last) = upper.last() {
            disk.link(last, lower[0]);
        }
        disk.chain(Some(3), &self.chains.to_be_freed);
        disk.chain(Some(4), &self.chains.bad);
        let file_heads: Vec<u16> =
            self.chains.files.iter().map(|extents| disk.chain(None, extents)[0]).collect();
        let directory_heads = self.directory_chains(&mut disk);
        disk.write_anodes();
        let tree = self.write_directories(&mut disk, &file_heads, &directory_heads, rng);
        Shaped { image: disk.image, tree }
    }

    fn directory_chains(&self, disk: &mut Writer) -> Vec<u16> {
        let mut heads = Vec::new();
        for (directory, blocks) in self.directory_blocks.iter().enumerate() {
            let extents: Vec<Extent> = blocks.iter().map(|&start| Extent { start, count: 1 }).collect();
            heads.push(disk.chain((directory == 0).then_some(ROOT), &extents)[0]);
        }
        heads
    }

    fn write_directories(
        &self,
        disk: &mut Writer,
        files: &[u16],
        directories: &[u16],
        rng: &mut Rng,
    ) -> Tree {
        let mut tree = BTreeMap::new();
        for (directory, blocks) in self.outline.blocks.iter().enumerate() {
            let head = directories[directory];
            let parent = (directory != 0).then(|| directories[self.outline.parents[directory]]);
            let mut contents = Vec::new();
            for (drafts, &number) in blocks.iter().zip(&self.directory_blocks[directory]) {
                let nodes: Vec<Node> =
                    drafts.iter().map(|draft| self.node(disk, draft, files, directories, rng)).collect();
                disk.write_directory_block(number, head, parent, &nodes);
                contents.push(nodes);
            }
            tree.insert(head, Directory { blocks: contents });
        }
        Tree { directories: tree }
    }

    /// The entry with all its fields; a file's bytes are those that its blocks hold.
    fn node(&self, disk: &Writer, draft: &Draft, files: &[u16], directories: &[u16], rng: &mut Rng) -> Node {
        let (kind, anode, size, content) = match draft.item {
            Item::Directory(directory) => {
                (Kind::Directory, directories[directory], rng.next64() as u32, Vec::new())
            }
            Item::File(file) => {
                let mut content = disk.bytes_of(&self.chains.files[file]);
                let missing = if rng.percent(30) { 0 } else { rng.below(BLOCK) };
                content.truncate(content.len().saturating_sub(missing));
                (Kind::File, files[file], content.len() as u32, content)
            }
        };
        let entry = Entry {
            kind,
            anode,
            size,
            stamp: rng.stamp(),
            protection: rng.byte(),
            name: draft.name.clone(),
            comment: draft.comment.clone(),
        };
        Node { entry, content }
    }
}

/// The blocks from 3 up that have no owner yet, handed out upward or in any order.
struct FreeBlocks {
    /// Those still to be handed out, the next one last.
    rest: Vec<u16>,
}

impl FreeBlocks {
    fn new(recipe: &Recipe, rng: &mut Rng) -> Self {
        let mut rest: Vec<u16> = (3..recipe.blocks).rev().map(|block| block as u16).collect();
        if recipe.scattered {
            rng.shuffle(&mut rest);
        }
        FreeBlocks { rest }
    }

    fn take(&mut self) -> Option<u16> {
        self.rest.pop()
    }

    /// What is left, as runs of consecutive blocks.
    fn intervals(&self) -> Vec<Extent> {
        let mut rest = self.rest.clone();
        rest.sort_unstable();
        let mut runs: Vec<Extent> = Vec::new();
        for block in rest {
            match runs.last_mut() {
                Some(run) if run.start + run.count == block => run.count += 1,
                _ => runs.push(Extent { start: block, count: 1 }),
            }
        }
        runs
    }
}

fn draw_slots(recipe: &Recipe, free: &mut FreeBlocks, rng: &mut Rng) -> Option<[u16; SLOTS]> {
    let mut others: Vec<usize> = (1..SLOTS).collect();
    if recipe.scattered {
        rng.shuffle(&mut others);
    }
    let mut slots = [0; SLOTS];
    slots[0] = free.take()?;
    for &slot in &others[..recipe.slots - 1] {
        slots[slot] = free.take()?;
    }
    Some(slots)
}
