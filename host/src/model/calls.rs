//! The calls. Each but format runs the whole check first and then tries its own numbers in table order. A change
//! is worked out in full before the image is touched, so that a refused one leaves every byte.

use std::ops::Range;

use super::check::{check, number, survey, Survey};
use super::layout::*;
use super::space::{Purpose, Space};
use crate::calls::Stamp;

/// Runs a change after the check, and fills the tables for the new image if it was done.
fn change(
    image: &mut [u8],
    blocks: &mut [u16],
    anodes: &mut [u16],
    work: impl FnOnce(&mut [u8], Survey) -> Result<(), u32>,
) -> u32 {
    let result = survey(image, blocks, anodes).and_then(|survey| work(image, survey));
    match result {
        Ok(()) => check(image, blocks, anodes),
        Err(number) => number,
    }
}

/// The check, and what it counted: N, free blocks, files, directories with the root. All 0 after a refusal.
pub fn summary(image: &[u8], blocks: &mut [u16], anodes: &mut [u16], fields: &mut [u32; 4]) -> u32 {
    *fields = [0; 4];
    let result = survey(image, blocks, anodes).map(|survey| {
        *fields = [survey.blocks as u32, survey.free, survey.files, survey.directories];
    });
    number(result)
}

/// Makes an empty disk in the lent image.
pub fn format(
    image: &mut [u8],
    last_reserved: u16,
    anode_blocks: u16,
    name: &[u8],
    stamp: Stamp,
    protection: u16,
) -> u32 {
    let Some(size) = disk_size(image) else {
        return 1;
    };
    let good = (1..=SLOTS as u16).contains(&anode_blocks)
        && 3 + anode_blocks <= last_reserved
        && usize::from(last_reserved) < size
        && (1..=LONGEST_DISK_NAME).contains(&name.len());
    if !good {
        return 20;
    }
    image.fill(0);
    image[..4].copy_from_slice(&DISK_TYPE);
    let root = block_mut(image, ROOT_BLOCK);
    root[..4].copy_from_slice(&DISK_TYPE);
    put_word(root, ROOT_DAY, stamp.day);
    put_word(root, ROOT_MINUTE, stamp.minute);
    put_word(root, ROOT_TICK, stamp.tick);
    put_word(root, ROOT_PROTECTION, protection);
    root[ROOT_NAME] = name.len() as u8;
    root[ROOT_NAME + 1..ROOT_NAME + 1 + name.len()].copy_from_slice(name);
    put_word(root, ROOT_LAST_RESERVED, last_reserved);
    for slot in 0..anode_blocks {
        put_anode_block(image, usize::from(slot), 3 + slot);
    }
    format_anodes(image, size, last_reserved, 3 + anode_blocks);
    head_directory_block(image, 3 + anode_blocks, ROOT_DIRECTORY, 0);
    0
}

/// The first anodes of an empty disk whose root directory is in `directory`, the block after the anode blocks.
fn format_anodes(image: &mut [u8], size: usize, last_reserved: u16, directory: u16) {
    let mut table = AnodeTable::read(image);
    let lower = last_reserved - directory;
    let upper = (size - 1 - usize::from(last_reserved)) as u16;
    table[0] = Anode::empty(0);
    table[FREE_LIST] = Anode::empty(RESERVED);
    table[RESERVED] = match lower {
        0 => Anode::empty(0),
        count => Anode::new(count, directory + 1, 0),
    };
    table[ROOT_DIRECTORY] = Anode::new(1, directory, 0);
    if upper > 0 {
        table[FREE_LIST].next = FIRST_USER;
        table[FIRST_USER] = Anode::new(upper, last_reserved + 1, RESERVED);
    }
    table.write(image);
}

/// Zeroes a block and heads it as one of a directory.
pub(super) fn head_directory_block(image: &mut [u8], number: u16, owner: u16, parent: u16) {
    let bytes = block_mut(image, number);
    bytes.fill(0);
    bytes[..2].copy_from_slice(&DIRECTORY_MARK);
    put_word(bytes, DIRECTORY_OWNER, owner);
    put_word(bytes, DIRECTORY_PARENT, parent);
}

/// The entries of a directory with the blocks they are in, in chain order and byte order.
pub(super) fn entries<'a>(
    image: &'a [u8],
    table: &'a AnodeTable,
    head: u16,
) -> impl Iterator<Item = (u16, Entry<'a>)> {
    table
        .chain_blocks(head)
        .flat_map(move |number| Entries::of(block(image, number)).flatten().map(move |entry| (number, entry)))
}

/// 21: the number must be a reached directory's head.
fn reached(survey: &Survey, directory: u16) -> Result<(), u32> {
    let parent = survey.parents.get(usize::from(directory)).copied().flatten();
    parent.map(drop).ok_or(21)
}

/// 21, 22: the entry of that name after folding, with the block it is in.
pub(super) fn find<'a>(
    image: &'a [u8],
    survey: &'a Survey,
    directory: u16,
    name: &[u8],
) -> Result<(u16, Entry<'a>), u32> {
    reached(survey, directory)?;
    let name = folded(name);
    entries(image, &survey.table, directory).find(|(_, entry)| folded(entry.name) == name).ok_or(22)
}

/// 21, 22, 24: the same for a file.
pub(super) fn find_file<'a>(
    image: &'a [u8],
    survey: &'a Survey,
    directory: u16,
    name: &[u8],
) -> Result<(u16, Entry<'a>), u32> {
    let found = find(image, survey, directory, name)?;
    match found.1.kind {
        FILE => Ok(found),
        _ => Err(24),
    }
}

/// 21, 22, 24, 26: the parts of the image that hold a range of a file's bytes, in order.
fn file_parts(
    image: &[u8],
    survey: &Survey,
    directory: u16,
    name: &[u8],
    offset: u64,
    length: usize,
) -> Result<Vec<Range<usize>>, u32> {
    let (_, entry) = find_file(image, survey, directory, name)?;
    let end = u128::from(offset) + length as u128;
    if end > u128::from(entry.size) {
        return Err(26);
    }
    let wanted = offset as usize..end as usize;
    let mut parts = Vec::new();
    let mut passed = 0;
    for (_, anode) in survey.table.chain(entry.anode) {
        let held = usize::from(anode.count) * BLOCK;
        let from = wanted.start.clamp(passed, passed + held);
        let to = wanted.end.clamp(passed, passed + held);
        if from < to {
            let start = usize::from(anode.block) * BLOCK;
            parts.push(start + from - passed..start + to - passed);
        }
        passed += held;
    }
    Ok(parts)
}

/// Reads as many bytes of a file as the output buffer has, from an offset on.
pub fn read(
    image: &[u8],
    blocks: &mut [u16],
    anodes: &mut [u16],
    directory: u16,
    name: &[u8],
    offset: u64,
    out: &mut [u8],
) -> u32 {
    let parts = survey(image, blocks, anodes)
        .and_then(|survey| file_parts(image, &survey, directory, name, offset, out.len()));
    number(parts.map(|parts| {
        let mut rest = out;
        for part in parts {
            let (here, behind) = rest.split_at_mut(part.len());
            here.copy_from_slice(&image[part]);
            rest = behind;
        }
    }))
}

/// Answers the entry at a place of a directory: type, anode, size, day, minute, tick, protection, name offset in
/// the image, name length, comment offset in the image, comment length. All 0 after a refusal.
pub fn list(
    image: &[u8],
    blocks: &mut [u16],
    anodes: &mut [u16],
    directory: u16,
    place: u64,
    fields: &mut [u32; 11],
) -> u32 {
    *fields = [0; 11];
    let result = survey(image, blocks, anodes).and_then(|survey| {
        reached(&survey, directory)?;
        let place = usize::try_from(place).map_err(|_| 22u32)?;
        let (number, entry) = entries(image, &survey.table, directory).nth(place).ok_or(22u32)?;
        *fields = entry_fields(number, &entry);
        Ok(())
    });
    number(result)
}

/// What list hands back of an entry in a block.
fn entry_fields(number: u16, entry: &Entry) -> [u32; 11] {
    let start = usize::from(number) * BLOCK;
    [
        u32::from(entry.kind),
        u32::from(entry.anode),
        entry.size,
        u32::from(entry.day),
        u32::from(entry.minute),
        u32::from(entry.tick),
        u32::from(entry.protection),
        (start + entry.at + ENTRY_NAME) as u32,
        entry.name.len() as u32,
        (start + entry.comment_at()) as u32,
        entry.comment.len() as u32,
    ]
}

/// Answers the entry of a name in a directory, in the fields of list.
pub fn find_entry(
    image: &[u8],
    blocks: &mut [u16],
    anodes: &mut [u16],
    directory: u16,
    name: &[u8],
    fields: &mut [u32; 11],
) -> u32 {
    *fields = [0; 11];
    let result = survey(image, blocks, anodes).and_then(|survey| {
        let (number, entry) = find(image, &survey, directory, name)?;
        *fields = entry_fields(number, &entry);
        Ok(())
    });
    number(result)
}

/// Answers the disk's label: last reserved, day, minute, tick, protection, and its name's offset in the image and length.
/// All 0 after a refusal.
pub fn label(image: &[u8], blocks: &mut [u16], anodes: &mut [u16], fields: &mut [u32; 7]) -> u32 {
    *fields = [0; 7];
    let result = survey(image, blocks, anodes).map(|survey| {
        let root = root(image);
        let name = usize::from(ROOT_BLOCK) * BLOCK + ROOT_NAME + 1;
        *fields = [
            u32::from(survey.last_reserved),
            u32::from(word(root, ROOT_DAY)),
            u32::from(word(root, ROOT_MINUTE)),
            u32::from(word(root, ROOT_TICK)),
            u32::from(word(root, ROOT_PROTECTION)),
            name as u32,
            u32::from(root[ROOT_NAME]),
        ];
    });
    number(result)
}

/// What the caller of make settles of the new entry.
pub struct NewEntry<'a> {
    pub kind: u8,
    pub name: &'a [u8],
    pub comment: &'a [u8],
    pub stamp: Stamp,
    pub protection: u8,
}

impl NewEntry<'_> {
    pub(super) fn good(&self) -> bool {
        good_type(self.kind) && good_name(self.name) && self.comment.len() <= LONGEST_COMMENT
    }

    /// The bytes of the entry with size 0, and with its pad byte if it has one.
    pub(super) fn bytes(&self, anode: u16) -> Vec<u8> {
        let length = entry_length(self.name.len(), self.comment.len());
        let mut bytes = vec![length as u8, self.kind];
        bytes.extend(anode.to_be_bytes());
        bytes.extend(0u32.to_be_bytes());
        bytes.extend(self.stamp.day.to_be_bytes());
        bytes.extend(self.stamp.minute.to_be_bytes());
        bytes.extend(self.stamp.tick.to_be_bytes());
        bytes.push(self.protection);
        bytes.push(self.name.len() as u8);
        bytes.extend(self.name);
        bytes.push(self.comment.len() as u8);
        bytes.extend(self.comment);
        bytes.resize(length, 0);
        bytes
    }
}

/// The first block of a directory with room for an entry and the end mark, and the place there.
pub(super) fn room(image: &[u8], table: &AnodeTable, directory: u16, length: usize) -> Option<(u16, usize)> {
    table
        .chain_blocks(directory)
        .map(|number| (number, entries_end(block(image, number))))
        .find(|(_, end)| end + length <= LAST_END_MARK)
}

/// Makes an empty file or directory.
pub fn make(image: &mut [u8], blocks: &mut [u16], anodes: &mut [u16], directory: u16, new: &NewEntry) -> u32 {
    change(image, blocks, anodes, |image, survey| {
        if !new.good() {
            return Err(20);
        }
        match find(image, &survey, directory, new.name) {
            Ok(_) => return Err(23),
            Err(22) => {}
            Err(number) => return Err(number),
        }
        let parent = survey.parents[usize::from(directory)].unwrap_or(0);
        let length = entry_length(new.name.len(), new.comment.len());
        let place = room(image, &survey.table, directory, length);

        let mut space = Space::new(survey.table, survey.last_reserved);
        let head = space.needed_anode()?;
        space.table[head] = Anode::empty(0);
        let own = match new.kind {
            DIRECTORY => Some(space.take(head, Purpose::Directory)?),
            _ => None,
        };
        let fresh = match place {
            None => Some(space.take(directory, Purpose::Directory)?),
            Some(_) => None,
        };

        space.table.write(image);
        if let Some(block) = own {
            head_directory_block(image, block, head, directory);
        }
        if let Some(block) = fresh {
            head_directory_block(image, block, directory, parent);
        }
        if let Some((number, at)) = place.or(fresh.map(|number| (number, FIRST_ENTRY))) {
            let bytes = block_mut(image, number);
            bytes[at..at + length].copy_from_slice(&new.bytes(head));
            bytes[at + length] = 0;
        }
        Ok(())
    })
}

/// Gives a file a new size, taking one block at a time or giving back whole runs.
pub fn resize(
    image: &mut [u8],
    blocks: &mut [u16],
    anodes: &mut [u16],
    directory: u16,
    name: &[u8],
    size: u64,
) -> u32 {
    change(image, blocks, anodes, |image, survey| {
        let (number, entry) = find_file(image, &survey, directory, name)?;
        let (at, head, old_size) = (entry.at, entry.anode, entry.size);
        let old_blocks = u64::from(old_size.div_ceil(BLOCK as u32));
        let new_blocks = size.div_ceil(BLOCK as u64);
        let old_last = survey.table.chain_blocks(head).last();

        let mut space = Space::new(survey.table, survey.last_reserved);
        let mut taken = Vec::new();
        for _ in old_blocks..new_blocks {
            taken.push(space.take(head, Purpose::Data)?);
        }
        space.shorten(head, old_blocks.saturating_sub(new_blocks) as usize)?;
        // More than four bytes hold is more than any disk has: a step was refused before.
        let new_size = u32::try_from(size).map_err(|_| 27u32)?;

        space.table.write(image);
        let used = old_size as usize % BLOCK;
        if let (true, true, Some(last)) = (new_size > old_size, used != 0, old_last) {
            block_mut(image, last)[used..].fill(0);
        }
        for block in taken {
            block_mut(image, block).fill(0);
        }
        put_long(block_mut(image, number), at + ENTRY_SIZE, new_size);
        Ok(())
    })
}

/// Replaces bytes of a file within its size.
pub fn write(
    image: &mut [u8],
    blocks: &mut [u16],
    anodes: &mut [u16],
    directory: u16,
    name: &[u8],
    offset: u64,
    data: &[u8],
) -> u32 {
    change(image, blocks, anodes, |image, survey| {
        let mut rest = data;
        for part in file_parts(image, &survey, directory, name, offset, data.len())? {
            let (here, behind) = rest.split_at(part.len());
            image[part].copy_from_slice(here);
            rest = behind;
        }
        Ok(())
    })
}

/// Closes the gap of an entry that goes, and zeroes as many bytes behind the last one as it had.
pub(super) fn close_gap(bytes: &mut [u8], at: usize, length: usize) {
    let end = entries_end(bytes);
    bytes.copy_within(at + length..end, at);
    bytes[end - length..end].fill(0);
}

/// Removes a file or an empty directory.
pub fn remove(image: &mut [u8], blocks: &mut [u16], anodes: &mut [u16], directory: u16, name: &[u8]) -> u32 {
    change(image, blocks, anodes, |image, survey| {
        let (number, entry) = find(image, &survey, directory, name)?;
        let (at, length, head) = (entry.at, entry.length, entry.anode);
        if entry.kind == DIRECTORY && entries(image, &survey.table, head).next().is_some() {
            return Err(25);
        }

        let mut space = Space::new(survey.table, survey.last_reserved);
        space.dissolve(head)?;

        space.table.write(image);
        close_gap(block_mut(image, number), at, length);
        Ok(())
    })
}
