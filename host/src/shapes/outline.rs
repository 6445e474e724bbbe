//! The directories and files of a shaped disk, before they have blocks and anodes.

use std::collections::HashSet;

use super::recipe::Recipe;
use crate::names::{folded, near, recased};
use crate::rng::Rng;
use crate::tree::{entry_length, ENTRY_SPACE};

/// An entry of the outline: the file or the directory with this index.
#[derive(Clone, Copy, Debug)]
pub(super) enum Item {
    File(usize),
    Directory(usize),
}

/// An entry before its blocks and anodes are known.
#[derive(Clone, Debug)]
pub(super) struct Draft {
    pub item: Item,
    pub name: Vec<u8>,
    pub comment: Vec<u8>,
}

impl Draft {
    fn length(&self) -> usize {
        entry_length(self.name.len(), self.comment.len())
    }
}

/// The directories (the root first) with their parents and their entries, block by block.
#[derive(Clone, Debug)]
pub(super) struct Outline {
    pub parents: Vec<usize>,
    pub blocks: Vec<Vec<Vec<Draft>>>,
    pub files: usize,
}

impl Outline {
    pub fn draw(recipe: &Recipe, directories: usize, files: usize, rng: &mut Rng) -> Self {
        let mut parents = vec![0];
        let mut items: Vec<Vec<Item>> = vec![Vec::new()];
        for directory in 1..=directories {
            // Half of them go into one of the newest directories, so that the tree gets deep.
            let parent = match rng.percent(50) {
                true => rng.below(directory),
                false => directory - 1 - rng.below(directory.min(3)),
            };
            parents.push(parent);
            items[parent].push(Item::Directory(directory));
            items.push(Vec::new());
        }
        for file in 0..files {
            items[rng.below(directories + 1)].push(Item::File(file));
        }
        let extra = directories + files > 0;
        let mut known = Vec::new();
        let blocks = items.into_iter().map(|items| pack(items, &mut known, recipe, extra, rng)).collect();
        Outline { parents, blocks, files }
    }

    pub fn directory_blocks(&self) -> usize {
        self.blocks.iter().map(Vec::len).sum()
    }
}

/// Names the entries of a directory, shuffles them, and packs them into blocks, now and then leaving a block
/// early or empty. The names of this directory and those before it become known.
fn pack(
    mut items: Vec<Item>,
    known: &mut Vec<Vec<u8>>,
    recipe: &Recipe,
    extra: bool,
    rng: &mut Rng,
) -> Vec<Vec<Draft>> {
    rng.shuffle(&mut items);
    let mut here: HashSet<Vec<u8>> = HashSet::new();
    let mut blocks: Vec<Vec<Draft>> = vec![Vec::new()];
    let mut used = 0;
    for item in items {
        let name = loop {
            let name = telling_name(known, recipe, rng);
            if here.insert(folded(&name)) {
                break name;
            }
        };
        known.push(name.clone());
        let comment_length = rng.within(0..=recipe.comment);
        let draft = Draft { item, name, comment: rng.bytes(comment_length) };
        if used + draft.length() > ENTRY_SPACE || (recipe.junk && rng.percent(3)) {
            blocks.push(Vec::new());
            used = 0;
        }
        used += draft.length();
        if let Some(block) = blocks.last_mut() {
            block.push(draft);
        }
    }
    while extra && recipe.junk && rng.percent(8) {
        let place = rng.within(0..=blocks.len());
        blocks.insert(place, Vec::new());
    }
    blocks
}

/// A name that looks like a known one, or nearly so, or any.
fn telling_name(known: &[Vec<u8>], recipe: &Recipe, rng: &mut Rng) -> Vec<u8> {
    let told = match rng.pick(known) {
        Some(name) if recipe.junk && rng.percent(10) => Some(recased(name, rng)),
        Some(name) if recipe.junk && rng.percent(10) => near(name, rng),
        _ => None,
    };
    told.unwrap_or_else(|| random_name(recipe.name, rng))
}

/// A name of any bytes that a name may have, up to this long.
fn random_name(longest: usize, rng: &mut Rng) -> Vec<u8> {
    let mut name = vec![0; rng.within(1..=longest)];
    for byte in &mut name {
        while matches!(*byte, 0 | b':' | b'/') {
            *byte = match rng.percent(80) {
                true => [b'A', b'a'][rng.below(2)] + rng.below(26) as u8,
                false => rng.byte(),
            };
        }
    }
    name
}
