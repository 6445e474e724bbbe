//! Writes a shaped disk.

use std::collections::BTreeMap;

use super::chains::Extent;
use super::recipe::Recipe;
use crate::model::layout::*;
use crate::rng::Rng;
use crate::tree::Node;

/// A disk that is written block by block over what was there.
pub(super) struct Writer {
    pub image: Vec<u8>,
    slots: [u16; SLOTS],
    anodes: BTreeMap<u16, Anode>,
    /// Numbers from 6 up that are still free, the next one last.
    pool: Vec<u16>,
}

impl Writer {
    pub fn new(recipe: &Recipe, slots: &[u16; SLOTS], rng: &mut Rng) -> Self {
        let mut image = vec![0; recipe.blocks * BLOCK];
        if recipe.junk {
            rng.fill(&mut image);
        } else {
            // Files hold something in any case.
            image.chunks_mut(BLOCK).for_each(|block| block[0] = rng.byte());
        }
        let mut pool: Vec<u16> = (FIRST_USER..ANODES as u16)
            .rev()
            .filter(|&number| slots[usize::from(number) / ANODES_IN_BLOCK] != 0)
            .collect();
        if recipe.scattered {
            rng.shuffle(&mut pool);
        }
        let anodes = BTreeMap::from([(0, Anode::empty(0))]);
        let mut writer = Writer { image, slots: *slots, anodes, pool };
        writer.write_root(recipe, rng);
        writer
    }

    fn write_root(&mut self, recipe: &Recipe, rng: &mut Rng) {
        let root = block_mut(&mut self.image, ROOT_BLOCK);
        root[..4].copy_from_slice(&DISK_TYPE);
        root[ROOT_NAME] = rng.within(1..=LONGEST_DISK_NAME) as u8;
        put_word(root, ROOT_FIRST_RESERVED, 0);
        put_word(root, ROOT_LAST_RESERVED, recipe.last_reserved);
        for (slot, &number) in self.slots.iter().enumerate() {
            put_word(root, ROOT_SLOTS + 2 * slot, number);
        }
    }

    /// Plans a chain and answers its numbers: the first one may be told, the others come from the pool.
    pub fn chain(&mut self, first: Option<u16>, extents: &[Extent]) -> Vec<u16> {
        let mut numbers: Vec<u16> = first.into_iter().take(extents.len()).collect();
        while numbers.len() < extents.len() {
            numbers.push(self.pool.pop().expect("the plan counted the anodes"));
        }
        for (place, extent) in extents.iter().enumerate() {
            let next = numbers.get(place + 1).copied().unwrap_or(0);
            self.anodes.insert(numbers[place], Anode::new(extent.count, extent.start, next));
        }
        numbers
    }

    pub fn link(&mut self, from: u16, to: u16) {
        if let Some(anode) = self.anodes.get_mut(&from) {
            anode.next = to;
        }
    }

    /// Writes all anode blocks; an anode that is in no chain is free.
    pub fn write_anodes(&mut self) {
        for (slot, number) in used_slots(&self.slots) {
            let bytes = block_mut(&mut self.image, number);
            bytes[..2].copy_from_slice(&ANODE_MARK);
            put_word(bytes, ANODE_SEQUENCE, slot as u16);
            for place in 0..ANODES_IN_BLOCK {
                let planned = self.anodes.get(&((slot * ANODES_IN_BLOCK + place) as u16));
                let anode = planned.copied().unwrap_or(Anode::ZERO);
                put_anode(bytes, FIRST_ANODE + place * ANODE_BYTES, anode);
            }
        }
    }

    /// Writes a directory block, without a parent for the root, whose parent field no rule examines.
    pub fn write_directory_block(&mut self, number: u16, head: u16, parent: Option<u16>, nodes: &[Node]) {
        let block = block_mut(&mut self.image, number);
        block[..2].copy_from_slice(&DIRECTORY_MARK);
        put_word(block, DIRECTORY_OWNER, head);
        if let Some(parent) = parent {
            put_word(block, DIRECTORY_PARENT, parent);
        }
        let mut at = FIRST_ENTRY;
        for node in nodes {
            let bytes = entry_bytes(node);
            block[at..at + bytes.len()].copy_from_slice(&bytes);
            at += node.length();
        }
        block[at] = 0;
    }

    /// What the blocks of a chain hold.
    pub fn bytes_of(&self, extents: &[Extent]) -> Vec<u8> {
        let mut bytes = Vec::new();
        for extent in extents.iter().filter(|extent| extent.count > 0) {
            let start = usize::from(extent.start) * BLOCK;
            bytes.extend(&self.image[start..start + usize::from(extent.count) * BLOCK]);
        }
        bytes
    }
}

/// The bytes of an entry, without its pad byte.
fn entry_bytes(node: &Node) -> Vec<u8> {
    let entry = &node.entry;
    let mut bytes = vec![node.length() as u8, entry.kind.type_byte()];
    bytes.extend(entry.anode.to_be_bytes());
    bytes.extend(entry.size.to_be_bytes());
    bytes.extend(entry.stamp.day.to_be_bytes());
    bytes.extend(entry.stamp.minute.to_be_bytes());
    bytes.extend(entry.stamp.tick.to_be_bytes());
    bytes.extend([entry.protection, entry.name.len() as u8]);
    bytes.extend(&entry.name);
    bytes.push(entry.comment.len() as u8);
    bytes.extend(&entry.comment);
    bytes
}
