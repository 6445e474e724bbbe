//! Safe updates (02, No. 8): a change other than format as a list of block writes, in the order in which the blocks are taken,
//! the root last. The list is worked out in full, and the old blocks are given back in it, before the image is touched.

use super::calls::{close_gap, entries, find, find_file, head_directory_block, room, NewEntry};
use super::check::{check, survey, Survey};
use super::layout::*;
use super::space::{Purpose, Space};
use crate::calls::BLOCK_WRITE;

/// What a safe call is lent besides the image and the tables: the buffer for the list, and the number of its writes.
pub struct List<'a> {
    pub writes: &'a mut [u8],
    pub count: &'a mut [u32; 1],
}

/// Runs a safe change after the check. If it is done, the list goes to the front of its buffer, and the image and the tables
/// are those after all of its writes. 32 if the buffer is too short.
fn safely(
    image: &mut [u8],
    blocks: &mut [u16],
    anodes: &mut [u16],
    list: List,
    work: impl FnOnce(&[u8], Survey) -> Result<Draft, u32>,
) -> u32 {
    *list.count = [0];
    let drafted = survey(image, blocks, anodes).and_then(|survey| work(image, survey)?.finished(image));
    let writes = match drafted {
        Ok(writes) => writes,
        Err(number) => return number,
    };
    let Some(front) = list.writes.get_mut(..writes.len() * BLOCK_WRITE) else {
        return 32;
    };
    for (place, (number, bytes)) in front.chunks_exact_mut(BLOCK_WRITE).zip(&writes) {
        put_word(place, 0, *number);
        place[2..].copy_from_slice(bytes);
        block_mut(image, *number).copy_from_slice(bytes);
    }
    *list.count = [writes.len() as u32];
    check(image, blocks, anodes)
}

/// A block that is written, and its bytes.
type Write = (u16, Vec<u8>);

/// A safe change in the making.
struct Draft {
    space: Space,
    /// What is written to the blocks that were taken, in order.
    writes: Vec<Write>,
    /// The blocks that go back.
    old: Vec<u16>,
}

impl Draft {
    /// 27, before any step, exactly if fewer blocks are free than these and one for each anode block.
    fn new(survey: Survey, blocks: u64) -> Result<Self, u32> {
        let needed = blocks + used_slots(survey.table.slots()).count() as u64;
        if u64::from(survey.free) < needed {
            return Err(27);
        }
        let space = Space::without_growth(survey.table, survey.last_reserved);
        Ok(Draft { space, writes: Vec::new(), old: Vec::new() })
    }

    /// A block where directories look, which stands in for an old one.
    fn new_place(&mut self, old: u16) -> Result<u16, u32> {
        self.old.push(old);
        self.space.free_block(Purpose::Directory).ok_or(27)
    }

    /// A directory takes another block, with this entry or none, at the end of its chain.
    fn add_directory_block(&mut self, head: u16, parent: u16, entry: &[u8]) -> Result<(), u32> {
        let number = self.space.take(head, Purpose::Directory)?;
        let mut bytes = vec![0; BLOCK];
        head_directory_block(&mut bytes, 0, head, parent);
        bytes[FIRST_ENTRY..FIRST_ENTRY + entry.len()].copy_from_slice(entry);
        self.writes.push((number, bytes));
        Ok(())
    }

    /// A block of a directory that changes takes a new place; of its anode only the block field changes.
    fn move_directory_block(&mut self, head: u16, old: u16, bytes: Vec<u8>) -> Result<(), u32> {
        let holder = self.space.table.chain(head).find(|(_, anode)| anode.count > 0 && anode.block == old);
        let number = self.new_place(old)?;
        if let Some((holder, _)) = holder {
            self.space.table[holder].block = number;
        }
        self.writes.push((number, bytes));
        Ok(())
    }

    /// The anodes of a chain are zeroed; its blocks go back in the end.
    fn drop_chain(&mut self, head: u16) {
        self.old.extend(self.space.table.chain_blocks(head));
        let chain: Vec<u16> = self.space.table.chain(head).map(|(number, _)| number).collect();
        chain.into_iter().for_each(|number| self.space.table[number] = Anode::ZERO);
    }

    /// A file takes all its blocks anew, with this content. It keeps its head, emptied.
    fn store_anew(&mut self, head: u16, content: &[u8]) -> Result<(), u32> {
        self.drop_chain(head);
        self.space.table[head] = Anode::empty(0);
        for bytes in content.chunks(BLOCK) {
            let number = self.space.take(head, Purpose::Data)?;
            self.writes.push((number, bytes.to_vec()));
        }
        Ok(())
    }

    /// The last steps: every anode block takes a new place, the old blocks go back, and the root is written.
    fn finished(mut self, image: &[u8]) -> Result<Vec<Write>, u32> {
        let slots = *self.space.table.slots();
        let mut root = root(image).to_vec();
        for (slot, old) in used_slots(&slots) {
            let number = self.new_place(old)?;
            put_word(&mut root, ROOT_SLOTS + 2 * slot, number);
            self.space.table.fill_slot(slot, number);
        }
        self.old.sort_unstable();
        for &number in &self.old {
            self.space.give_back(number)?;
        }
        for (slot, number) in used_slots(self.space.table.slots()) {
            let mut bytes = block(image, slots[slot]).to_vec();
            for place in 0..ANODES_IN_BLOCK {
                let anode = self.space.table[(slot * ANODES_IN_BLOCK + place) as u16];
                put_anode(&mut bytes, FIRST_ANODE + place * ANODE_BYTES, anode);
            }
            self.writes.push((number, bytes));
        }
        self.writes.push((ROOT_BLOCK, root));
        Ok(self.writes)
    }
}

impl Space {
    /// Gives back one block by itself: it joins or fills the last anode of its side, unless that is anode 1, else it goes in
    /// the lowest free anode, behind that one. 28 if none is free.
    fn give_back(&mut self, block: u16) -> Result<(), u32> {
        let last = self.last_of_side(block);
        let anode = self.table[last];
        let joined = match anode.count {
            _ if last == FREE_LIST => None,
            0 => Some(Anode { count: 1, block, ..anode }),
            _ if anode.end() == usize::from(block) => Some(Anode { count: anode.count + 1, ..anode }),
            _ if anode.block == block + 1 => Some(Anode { count: anode.count + 1, block, ..anode }),
            _ => None,
        };
        if let Some(joined) = joined {
            self.table[last] = joined;
            return Ok(());
        }
        let fresh = self.free_anode().ok_or(28u32)?;
        self.table[fresh] = Anode::new(1, block, anode.next);
        self.table[last].next = fresh;
        Ok(())
    }

    /// The last anode of the free list's side where a block belongs: above last reserved anode 2's predecessor, else the
    /// last of the whole list.
    fn last_of_side(&self, block: u16) -> u16 {
        let upper = block > self.last_reserved;
        let mut list = self.table.chain(FREE_LIST);
        let last = match upper {
            true => list.find(|(_, anode)| anode.next == RESERVED),
            false => list.last(),
        };
        last.map_or(FREE_LIST, |(number, _)| number)
    }
}

/// The bytes of whole blocks, one after the other.
fn whole_blocks(image: &[u8], numbers: impl Iterator<Item = u16>) -> Vec<u8> {
    numbers.flat_map(|number| block(image, number)).copied().collect()
}

/// Makes an empty file or directory, safely.
pub fn safe_make(
    image: &mut [u8],
    blocks: &mut [u16],
    anodes: &mut [u16],
    directory: u16,
    new: &NewEntry,
    list: List,
) -> u32 {
    safely(image, blocks, anodes, list, |image, survey| {
        if !new.good() {
            return Err(20);
        }
        match find(image, &survey, directory, new.name) {
            Ok(_) => return Err(23),
            Err(22) => {}
            Err(number) => return Err(number),
        }
        let parent = survey.parents[usize::from(directory)].unwrap_or(0);
        let length = entry_length(new.name.len(), new.comment.len());
        let place = room(image, &survey.table, directory, length);

        let mut draft = Draft::new(survey, 1 + u64::from(new.kind == DIRECTORY))?;
        let head = draft.space.needed_anode()?;
        draft.space.table[head] = Anode::empty(0);
        if new.kind == DIRECTORY {
            draft.add_directory_block(head, directory, &[])?;
        }
        let entry = new.bytes(head);
        match place {
            None => draft.add_directory_block(directory, parent, &entry)?,
            Some((number, at)) => {
                let mut bytes = block(image, number).to_vec();
                bytes[at..at + length].copy_from_slice(&entry);
                bytes[at + length] = 0;
                draft.move_directory_block(directory, number, bytes)?;
            }
        }
        Ok(draft)
    })
}

/// Gives a file a new size, safely.
pub fn safe_resize(
    image: &mut [u8],
    blocks: &mut [u16],
    anodes: &mut [u16],
    directory: u16,
    name: &[u8],
    size: u64,
    list: List,
) -> u32 {
    safely(image, blocks, anodes, list, |image, survey| {
        let (number, entry) = find_file(image, &survey, directory, name)?;
        let (at, head, old_size) = (entry.at, entry.anode, entry.size);
        let (needed, differs) = (size.div_ceil(BLOCK as u64), size != u64::from(old_size));
        let mut content = whole_blocks(image, survey.table.chain_blocks(head));

        let mut draft = Draft::new(survey, needed + u64::from(differs))?;
        // What a larger file has behind its old size is 0; of a smaller one the bytes behind the new size stay.
        if size > u64::from(old_size) {
            content.truncate(old_size as usize);
        }
        content.resize(needed as usize * BLOCK, 0);
        draft.store_anew(head, &content)?;
        if differs {
            let mut bytes = block(image, number).to_vec();
            put_long(&mut bytes, at + ENTRY_SIZE, size as u32);
            draft.move_directory_block(directory, number, bytes)?;
        }
        Ok(draft)
    })
}

/// Replaces bytes of a file within its size, safely: these data from an offset on.
pub fn safe_write(
    image: &mut [u8],
    blocks: &mut [u16],
    anodes: &mut [u16],
    directory: u16,
    name: &[u8],
    (offset, data): (u64, &[u8]),
    list: List,
) -> u32 {
    safely(image, blocks, anodes, list, |image, survey| {
        let (_, entry) = find_file(image, &survey, directory, name)?;
        let head = entry.anode;
        if u128::from(offset) + data.len() as u128 > u128::from(entry.size) {
            return Err(26);
        }
        let mut content = whole_blocks(image, survey.table.chain_blocks(head));
        content[offset as usize..][..data.len()].copy_from_slice(data);

        let mut draft = Draft::new(survey, (content.len() / BLOCK) as u64)?;
        draft.store_anew(head, &content)?;
        Ok(draft)
    })
}

/// Removes a file or an empty directory, safely.
pub fn safe_remove(
    image: &mut [u8],
    blocks: &mut [u16],
    anodes: &mut [u16],
    directory: u16,
    name: &[u8],
    list: List,
) -> u32 {
    safely(image, blocks, anodes, list, |image, survey| {
        let (number, entry) = find(image, &survey, directory, name)?;
        let (at, length, head) = (entry.at, entry.length, entry.anode);
        if entry.kind == DIRECTORY && entries(image, &survey.table, head).next().is_some() {
            return Err(25);
        }

        let mut draft = Draft::new(survey, 1)?;
        draft.drop_chain(head);
        let mut bytes = block(image, number).to_vec();
        close_gap(&mut bytes, at, length);
        draft.move_directory_block(directory, number, bytes)?;
        Ok(draft)
    })
}
