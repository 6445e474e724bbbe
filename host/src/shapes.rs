//! Generators of disk images for tests.
//!
//! * [`formatted`]: what format makes, for any arguments it takes.
//! * [`shaped`]: accepted disks that format never makes, built from a plan that gives every block an owner. `recipe`
//!   says what such a disk should be like, `outline` and `chains` are parts of the plan, `writer` writes it.
//! * [`accepted`]: one or the other.
//! * [`grown_in_turn`]: a long file in many extents.
//! * [`one_free_anode`], [`no_free_anode`]: disks whose only free anode is the last of all, or none.
//! * [`random_bytes`]: junk, mostly with a root block that may pass.
//! * [`Damager`]: accepted disks with a fault aimed at one refusal number, and disks with random damage.

mod chains;
mod damage;
mod faults;
mod outline;
mod plan;
mod recipe;
mod writer;

pub use damage::{Damager, Mixed, Place};
pub use plan::{shaped, Shaped};
pub use recipe::Recipe;

use crate::calls::{run, Call, ROOT};
use crate::disk::{Disk, Error, Format, New};
use crate::model::layout::*;
use crate::model::Model;
use crate::rng::Rng;

/// The arguments of a format that is done on a disk of this many blocks.
pub fn format_call(blocks: usize, rng: &mut Rng) -> Call {
    let most = (blocks - 4).min(SLOTS);
    let anode_blocks = match rng.below(3) {
        0 => 1,
        1 => rng.within(1..=most),
        _ => rng.within(1..=most.min(4)),
    };
    let lowest = 3 + anode_blocks;
    let last_reserved = match rng.below(4) {
        0 => lowest,
        1 => blocks - 1,
        2 => rng.within(lowest..=(lowest + 16).min(blocks - 1)),
        _ => rng.within(lowest..=blocks - 1),
    };
    let name_length = rng.within(1..=LONGEST_DISK_NAME);
    Call::Format {
        last_reserved: last_reserved as u16,
        anode_blocks: anode_blocks as u16,
        name: rng.bytes(name_length),
        stamp: rng.stamp(),
        protection: rng.word(),
    }
}

/// A disk of this many blocks (5 to 65,535), formatted by the model over junk.
pub fn formatted(blocks: usize, rng: &mut Rng) -> Vec<u8> {
    let mut image = rng.bytes(blocks * BLOCK);
    let call = format_call(blocks, rng);
    let outcome = run::<Model>(&call, &mut image, &mut [], &mut []);
    assert_eq!(outcome.answer, 0, "{call:?} is refused on {blocks} blocks");
    image
}

/// The long one of the files of [`grown_in_turn`].
pub const LONG_FILE: &[u8] = b"long";

/// A disk of 65,535 blocks on which two files have grown in turn, the long one by 41 or 42 blocks to 62,000, the other by
/// one each time. So the long one has 1,500 extents, and no two of them touch.
pub fn grown_in_turn() -> Vec<u8> {
    grow_in_turn().expect("there are blocks and anodes enough")
}

fn grow_in_turn() -> Result<Vec<u8>, Error> {
    let other = b"other";
    let mut disk = Disk::<Model>::format(MOST_BLOCKS, &Format::new(2_000, 42, b"disk"))?;
    disk.make(ROOT, &New::file(LONG_FILE))?;
    disk.make(ROOT, &New::file(other))?;
    let mut blocks = 0;
    for turn in 0..1_500 {
        blocks += if turn % 3 == 0 { 42 } else { 41 };
        disk.resize(ROOT, LONG_FILE, blocks * BLOCK as u64)?;
        disk.resize(ROOT, other, (turn + 1) * BLOCK as u64)?;
    }
    Ok(disk.into_image())
}

/// An empty disk of 1,760 blocks with so many anode blocks.
fn small_disk(anode_blocks: u16) -> Vec<u8> {
    let formatted = Disk::<Model>::format(1_760, &Format::new(63, anode_blocks, b"disk"));
    formatted.expect("the disk can be formatted").into_image()
}

/// Hangs the free anodes from 6 up to this one on the chain of bad blocks, without blocks.
fn hang_free_anodes(image: &mut [u8], last: u16) {
    let mut table = AnodeTable::read(image);
    let unused: Vec<u16> =
        table.existing().filter(|&a| (FIRST_USER..=last).contains(&a) && !table.in_use(a)).collect();
    let mut before = BAD_BLOCKS;
    table[before] = Anode::empty(0);
    for number in unused {
        table[before].next = number;
        table[number] = Anode::empty(0);
        before = number;
    }
    table.write(image);
}

/// A disk of 1,760 blocks with anodes in slots 0 and 41 alone, of which only the last is free.
pub fn one_free_anode() -> Vec<u8> {
    let mut image = small_disk(2);
    let number = slots(&image)[1];
    let root = block_mut(&mut image, ROOT_BLOCK);
    put_word(root, ROOT_SLOTS + 2, 0);
    put_word(root, ROOT_SLOTS + 2 * (SLOTS - 1), number);
    put_word(block_mut(&mut image, number), ANODE_SEQUENCE, SLOTS as u16 - 1);
    hang_free_anodes(&mut image, ANODES as u16 - 2);
    image
}

/// A disk of 1,760 blocks with anodes in slot 0 alone, of which none is free.
pub fn no_free_anode() -> Vec<u8> {
    let mut image = small_disk(1);
    hang_free_anodes(&mut image, ANODES as u16 - 1);
    image
}

/// A number of blocks: mostly few, at times many, never more than `most`.
pub fn disk_blocks(most: usize, rng: &mut Rng) -> usize {
    let bound = match rng.below(8) {
        0 => 5,
        1 | 2 => 12,
        3..=5 => 64,
        6 => 300,
        _ => most,
    };
    rng.within(5..=bound.min(most))
}

/// An accepted disk of at most this many blocks: at times formatted, mostly shaped.
pub fn accepted(most: usize, rng: &mut Rng) -> Vec<u8> {
    let blocks = disk_blocks(most, rng);
    match rng.percent(15) {
        true => formatted(blocks, rng),
        false => shaped(&Recipe::random(blocks, rng), rng).image,
    }
}

/// Junk of up to 12 blocks, at times with some bytes more, mostly with a root block that may pass 3 and 4.
pub fn random_bytes(rng: &mut Rng) -> Vec<u8> {
    let blocks = rng.within(0..=12);
    let extra = if rng.percent(10) { rng.below(BLOCK) } else { 0 };
    let mut image = rng.bytes(blocks * BLOCK + extra);
    if blocks >= 3 && rng.percent(80) {
        let root = block_mut(&mut image, ROOT_BLOCK);
        root[..4].copy_from_slice(&DISK_TYPE);
        root[ROOT_NAME] = rng.below(LONGEST_DISK_NAME + 3) as u8;
        put_word(root, ROOT_FIRST_RESERVED, 0);
        put_word(root, ROOT_LAST_RESERVED, rng.below(blocks + 1) as u16);
        root[ROOT_SLOTS..ROOT_SLOTS + 2 * SLOTS].fill(0);
        put_word(root, ROOT_SLOTS, rng.below(blocks + 1) as u16);
    }
    image
}
