//! Faults in directories and in what their entries name.

use super::{spoil, Fault};
use crate::model::layout::*;
use crate::rng::Rng;
use crate::shapes::damage::{Damager, Named};

/// The faults that are aimed at a number from 12 to 16.
pub(super) fn faults(number: u32) -> &'static [Fault] {
    match number {
        12 => &[
            empty_in_directory,
            directory_count_2,
            directory_count_0,
            directory_mark,
            directory_owner,
            directory_parent,
            entry_type,
            name_length,
            name_byte,
            entry_length_byte,
            comment_length,
            no_end_mark,
            no_room,
        ],
        13 => &[names_special, names_missing, names_free, names_follower],
        14 => &[named_twice],
        15 => &[size_high, size_low, size_any],
        16 => &[entry_cut, free_anode_headed, empty_tail_lost],
        _ => &[],
    }
}

/// Those of the numbers 12 to 15 that are in an entry itself.
pub(in crate::shapes) fn entry_faults(number: u32) -> &'static [Fault] {
    match number {
        12 => &[entry_type, name_length, name_byte, entry_length_byte, comment_length],
        13..=15 => faults(number),
        _ => &[],
    }
}

// 12: directories and entries.

fn empty_in_directory(damager: &Damager, image: &mut [u8], rng: &mut Rng) -> Option<()> {
    let head = *rng.pick(&damager.directories)?;
    let free = damager.any_free(rng, FIRST_USER)?;
    damager.put_anode(image, free, Anode::empty(damager.anode(head).next));
    damager.put_next(image, head, free);
    Some(())
}

/// An anode of a directory and one of the free list that fit together.
fn beside(damager: &Damager, rng: &mut Rng, fits: impl Fn(Anode, Anode) -> bool) -> Option<(u16, u16)> {
    let (upper, lower) = damager.sides();
    let mut pairs = Vec::new();
    for &head in &damager.directories {
        for (number, anode) in damager.survey.table.chain(head) {
            let free = upper.iter().chain(&lower).copied();
            pairs.extend(free.filter(|&free| fits(anode, damager.anode(free))).map(|free| (number, free)));
        }
    }
    rng.pick(&pairs).copied()
}

/// A directory's anode takes the free block behind its own.
fn directory_count_2(damager: &Damager, image: &mut [u8], rng: &mut Rng) -> Option<()> {
    let behind = |anode: Anode, free: Anode| free.count > 0 && anode.end() == usize::from(free.block);
    let (number, free) = beside(damager, rng, behind)?;
    let extent = damager.anode(free);
    damager.put_count(image, number, 2);
    damager.put_anode(image, free, Anode::new(extent.count - 1, extent.block + 1, extent.next));
    Some(())
}

/// A directory's anode leaves its block to the free extent before it.
fn directory_count_0(damager: &Damager, image: &mut [u8], rng: &mut Rng) -> Option<()> {
    let last = damager.survey.last_reserved;
    let before = |anode: Anode, free: Anode| {
        let same_side = (anode.block > last) == (free.block > last);
        free.count > 0 && free.end() == usize::from(anode.block) && same_side
    };
    let (number, free) = beside(damager, rng, before)?;
    damager.put_count(image, number, 0);
    damager.put_count(image, free, damager.anode(free).count + 1);
    Some(())
}

fn directory_mark(damager: &Damager, image: &mut [u8], rng: &mut Rng) -> Option<()> {
    let start = damager.any_directory_block(rng, |_| true)?;
    spoil(&mut image[start..][..2], rng);
    Some(())
}

fn directory_owner(damager: &Damager, image: &mut [u8], rng: &mut Rng) -> Option<()> {
    let start = damager.any_directory_block(rng, |_| true)?;
    spoil(&mut image[start + DIRECTORY_OWNER..][..2], rng);
    Some(())
}

fn directory_parent(damager: &Damager, image: &mut [u8], rng: &mut Rng) -> Option<()> {
    let start = damager.any_directory_block(rng, |head| head != ROOT_DIRECTORY)?;
    spoil(&mut image[start + DIRECTORY_PARENT..][..2], rng);
    Some(())
}

fn entry_type(damager: &Damager, image: &mut [u8], rng: &mut Rng) -> Option<()> {
    let entry = damager.any_entry(rng)?;
    let kind = [0, 1, 3, 4, 252, 254, 255, rng.within(3..=252) as u8][rng.below(8)];
    image[entry.place + ENTRY_TYPE] = kind;
    Some(())
}

fn name_length(damager: &Damager, image: &mut [u8], rng: &mut Rng) -> Option<()> {
    let entry = damager.any_entry(rng)?;
    image[entry.place + ENTRY_NAME_LENGTH] = [0, 108, rng.within(108..=255) as u8][rng.below(3)];
    Some(())
}

fn name_byte(damager: &Damager, image: &mut [u8], rng: &mut Rng) -> Option<()> {
    let entry = damager.any_entry(rng)?;
    image[entry.place + ENTRY_NAME + rng.below(entry.name)] = [0, b':', b'/'][rng.below(3)];
    Some(())
}

fn entry_length_byte(damager: &Damager, image: &mut [u8], rng: &mut Rng) -> Option<()> {
    let entry = damager.any_entry(rng)?;
    let right = image[entry.place];
    let wrong = match rng.below(4) {
        0 => right + 1,
        1 => right - 1,
        2 => right.wrapping_add(2),
        _ => rng.within(1..=255) as u8,
    };
    if wrong == right || wrong == 0 {
        return None;
    }
    image[entry.place] = wrong;
    Some(())
}

fn comment_length(damager: &Damager, image: &mut [u8], rng: &mut Rng) -> Option<()> {
    let entry = damager.any_entry(rng)?;
    let wrong = match rng.below(4) {
        0 => entry.comment + 2,
        1 => entry.comment.checked_sub(2)?,
        2 => 80,
        _ => rng.within(80..=255),
    };
    image[entry.place + ENTRY_NAME + entry.name] = wrong as u8;
    Some(())
}

/// Where the entries end stands a length that no entry has.
fn no_end_mark(damager: &Damager, image: &mut [u8], rng: &mut Rng) -> Option<()> {
    let start = damager.any_directory_block(rng, |_| true)?;
    let end = entries_end(&image[start..start + BLOCK]);
    image[start + end] = [1, 2, 16, 17, 205, 206, 255][rng.below(7)];
    Some(())
}

/// A good entry that reaches to the end of the block.
fn no_room(damager: &Damager, image: &mut [u8], rng: &mut Rng) -> Option<()> {
    let start = damager.any_directory_block(rng, |_| true)?;
    let end = entries_end(&image[start..start + BLOCK]);
    let length = BLOCK - end;
    if !(entry_length(1, 0)..=entry_length(LONGEST_NAME, LONGEST_COMMENT)).contains(&length) {
        return None;
    }
    let text = (length - 18).max(1);
    let name = text.min(LONGEST_NAME);
    let entry = &mut image[start + end..start + BLOCK];
    entry.fill(b'n');
    entry[0] = length as u8;
    entry[ENTRY_TYPE] = FILE;
    entry[ENTRY_NAME_LENGTH] = name as u8;
    entry[ENTRY_NAME + name] = (text - name) as u8;
    Some(())
}

// 13 and 14: what entries name.

fn put_named(image: &mut [u8], entry: Named, number: u16) {
    put_word(image, entry.place + ENTRY_ANODE, number);
}

fn names_special(damager: &Damager, image: &mut [u8], rng: &mut Rng) -> Option<()> {
    let entry = damager.any_entry(rng)?;
    put_named(image, entry, rng.within16(0..=5));
    Some(())
}

fn names_missing(damager: &Damager, image: &mut [u8], rng: &mut Rng) -> Option<()> {
    let entry = damager.any_entry(rng)?;
    put_named(image, entry, damager.any_missing(rng));
    Some(())
}

fn names_free(damager: &Damager, image: &mut [u8], rng: &mut Rng) -> Option<()> {
    let entry = damager.any_entry(rng)?;
    put_named(image, entry, damager.any_free(rng, FIRST_USER)?);
    Some(())
}

fn names_follower(damager: &Damager, image: &mut [u8], rng: &mut Rng) -> Option<()> {
    let entry = damager.any_entry(rng)?;
    let follower = |number, _| number >= FIRST_USER && damager.predecessor(number).is_some();
    put_named(image, entry, damager.any_in_use(rng, follower)?);
    Some(())
}

/// An entry names what an entry before it in the walk names.
fn named_twice(damager: &Damager, image: &mut [u8], rng: &mut Rng) -> Option<()> {
    let second = rng.below(damager.entries.len());
    let earlier = rng.pick(&damager.entries[..second])?;
    put_named(image, damager.entries[second], earlier.anode);
    Some(())
}

// 15: sizes.

fn put_size(image: &mut [u8], entry: Named, size: u32) -> Option<()> {
    if size.div_ceil(BLOCK as u32) == entry.size.div_ceil(BLOCK as u32) {
        return None;
    }
    put_long(image, entry.place + ENTRY_SIZE, size);
    Some(())
}

fn size_high(damager: &Damager, image: &mut [u8], rng: &mut Rng) -> Option<()> {
    let entry = damager.any_file(rng)?;
    let held = entry.size.next_multiple_of(BLOCK as u32);
    put_size(image, entry, held + 1)
}

fn size_low(damager: &Damager, image: &mut [u8], rng: &mut Rng) -> Option<()> {
    let entry = damager.any_file(rng)?;
    let held = entry.size.next_multiple_of(BLOCK as u32);
    put_size(image, entry, held.checked_sub(BLOCK as u32)?)
}

fn size_any(damager: &Damager, image: &mut [u8], rng: &mut Rng) -> Option<()> {
    let entry = damager.any_file(rng)?;
    // The two upper bytes alone, the two lower ones alone, or all.
    let size = match rng.below(3) {
        0 => entry.size ^ (rng.next64() as u32 & 0xFFFF_0000),
        1 => entry.size ^ (rng.next64() as u32 & 0x0000_FFFF),
        _ => rng.next64() as u32,
    };
    put_size(image, entry, size)
}

// 16: chains that nothing names.

/// The entries of a block end before this one.
fn entry_cut(damager: &Damager, image: &mut [u8], rng: &mut Rng) -> Option<()> {
    image[damager.any_entry(rng)?.place] = 0;
    Some(())
}

fn free_anode_headed(damager: &Damager, image: &mut [u8], rng: &mut Rng) -> Option<()> {
    let number = damager.any_free(rng, FIRST_USER)?;
    damager.put_anode(image, number, Anode::new(0, rng.within16(1..=65_535), 0));
    Some(())
}

/// An empty anode at the end of a chain loses its predecessor.
fn empty_tail_lost(damager: &Damager, image: &mut [u8], rng: &mut Rng) -> Option<()> {
    let number = damager.any_tail(rng, |anode| anode.count == 0)?;
    damager.put_next(image, damager.predecessor(number)?, 0);
    Some(())
}
