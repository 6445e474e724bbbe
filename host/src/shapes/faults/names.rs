//! Names of one directory that look alike.

use super::Fault;
use crate::model::layout::*;
use crate::names::{alike, near, recased};
use crate::rng::Rng;
use crate::shapes::damage::{Damager, Named};

/// The faults that are aimed at 17.
pub(super) const FAULTS: &[Fault] = &[in_one_block, across_blocks, same_bytes];

fn in_one_block(damager: &Damager, image: &mut [u8], rng: &mut Rng) -> Option<()> {
    let pair = any_pair(damager, rng, |first, second| first.block() == second.block())?;
    make_alike(damager, image, pair, recased, rng)
}

fn across_blocks(damager: &Damager, image: &mut [u8], rng: &mut Rng) -> Option<()> {
    let pair = any_pair(damager, rng, |first, second| first.block() != second.block())?;
    make_alike(damager, image, pair, recased, rng)
}

fn same_bytes(damager: &Damager, image: &mut [u8], rng: &mut Rng) -> Option<()> {
    let pair = any_pair(damager, rng, |_, _| true)?;
    make_alike(damager, image, pair, |name, _| name.to_vec(), rng)
}

/// Makes the names of any two entries of a directory look alike, and answers the place of the later one in the walk.
pub(in crate::shapes) fn any_alike(damager: &Damager, image: &mut [u8], rng: &mut Rng) -> Option<usize> {
    let pair = any_pair(damager, rng, |_, _| true)?;
    make_alike(damager, image, pair, recased, rng)?;
    Some(pair.1)
}

/// The places in the walk of two entries of one directory that fit, the earlier one first.
fn any_pair(
    damager: &Damager,
    rng: &mut Rng,
    fits: impl Fn(&Named, &Named) -> bool,
) -> Option<(usize, usize)> {
    let entries = &damager.entries;
    let mut pairs = Vec::new();
    for (place, first) in entries.iter().enumerate() {
        // The entries of a directory follow each other.
        let behind =
            (place + 1..entries.len()).take_while(|&other| entries[other].directory == first.directory);
        pairs.extend(behind.filter(|&other| fits(first, &entries[other])).map(|other| (place, other)));
    }
    rng.pick(&pairs).copied()
}

/// Gives one of two entries the name that the other's is made to; at least the one with the longer name has room for it.
fn make_alike(
    damager: &Damager,
    image: &mut [u8],
    pair: (usize, usize),
    made: fn(&[u8], &mut Rng) -> Vec<u8>,
    rng: &mut Rng,
) -> Option<()> {
    let (mut one, mut other) = (damager.entries[pair.0], damager.entries[pair.1]);
    if rng.percent(50) {
        std::mem::swap(&mut one, &mut other);
    }
    let mut named = |from: Named, to: Named| {
        let name = made(damager.name(from), rng);
        rename(damager, image, to, &name)
    };
    named(one, other).or_else(|| named(other, one))
}

/// Gives an entry another name and moves what is behind it in its block; nothing if there is no room.
fn rename(damager: &Damager, image: &mut [u8], entry: Named, name: &[u8]) -> Option<()> {
    let block = block_mut(image, entry.block());
    let (at, end) = (entry.place % BLOCK, entries_end(block));
    let behind = block[at + entry_length(entry.name, entry.comment)..=end].to_vec();
    let length = entry_length(name.len(), entry.comment);
    if at + length + behind.len() - 1 > LAST_END_MARK {
        return None;
    }
    let comment = damager.image[entry.place + ENTRY_NAME + entry.name..][..1 + entry.comment].to_vec();
    let text = [name, &comment].concat();
    block[at] = length as u8;
    block[at + ENTRY_NAME_LENGTH] = name.len() as u8;
    block[at + ENTRY_NAME..][..text.len()].copy_from_slice(&text);
    block[at + length..][..behind.len()].copy_from_slice(&behind);
    Some(())
}

/// Gives an entry a name that looks like one of another directory, which is no fault.
pub(in crate::shapes) fn alike_elsewhere(damager: &Damager, image: &mut [u8], rng: &mut Rng) -> Option<()> {
    let entry = damager.any_entry(rng)?;
    let others: Vec<Named> =
        damager.entries.iter().copied().filter(|other| other.directory != entry.directory).collect();
    let name = recased(damager.name(*rng.pick(&others)?), rng);
    rename_apart(damager, image, entry, &name)
}

/// Gives an entry a name that only nearly looks like another of its directory, which is no fault.
pub(in crate::shapes) fn nearly_alike(damager: &Damager, image: &mut [u8], rng: &mut Rng) -> Option<()> {
    let (first, second) = any_pair(damager, rng, |_, _| true)?;
    let name = near(damager.name(damager.entries[first]), rng)?;
    rename_apart(damager, image, damager.entries[second], &name)
}

/// The same where no other entry of the directory has a name that looks like it.
fn rename_apart(damager: &Damager, image: &mut [u8], entry: Named, name: &[u8]) -> Option<()> {
    let mut beside = damager
        .entries
        .iter()
        .filter(|other| other.directory == entry.directory && other.place != entry.place);
    match beside.any(|other| alike(damager.name(*other), name)) {
        true => None,
        false => rename(damager, image, entry, name),
    }
}
