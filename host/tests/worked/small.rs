//! Small disks for cases of taking and giving back that are worked out by hand. They have L 9 and one anode block in block 3,
//! and block 4 is the root directory. Its only entry, f, has the head 20. Blocks that a case does not mention are on the
//! chain of 3. A full disk has no free anode: those that a case does not mention hang empty on the chain of 4.

use std::collections::BTreeSet;

use ovenknit_host::calls::{Call, Library, BLOCK, DIRECTORY, FILE, ROOT};
use ovenknit_host::model::layout::{
    put_word, used_slots, Anode, BAD_BLOCKS, DIRECTORY_MARK, DIRECTORY_OWNER, DIRECTORY_PARENT, ENTRY_ANODE,
    FIRST_ENTRY, FIRST_USER, TO_BE_FREED,
};

use crate::disk::Disk;

/// Count, block and next of an anode, behind its number.
pub type Numbered = (u16, (u16, u16, u16));

const HEAD: u16 = 20;

pub const FREE: (u16, u16, u16) = (0, 0, 0);
/// A head that stays without blocks.
pub const EMPTIED: (u16, u16, u16) = (0, 65_535, 0);

/// A disk of so many blocks with these anodes besides 5, where f is of this kind. Of the anodes that are not mentioned only
/// the spare ones are free.
pub fn disk_of<L: Library>(kind: u8, blocks: usize, spare: &[u16], anodes: &[Numbered]) -> Disk<L> {
    built(Disk::format(blocks, 9, 1), kind, spare, anodes)
}

/// The disk of 20 blocks where f is a file.
pub fn with_spare<L: Library>(spare: &[u16], anodes: &[Numbered]) -> Disk<L> {
    disk_of(FILE, 20, spare, anodes)
}

/// The same on which no anode is free.
pub fn full<L: Library>(anodes: &[Numbered]) -> Disk<L> {
    with_spare(&[], anodes)
}

/// The same with spare anodes, but with 41 anode blocks more, from block 20 on, so that the table cannot grow.
pub fn stuck<L: Library>(spare: &[u16], anodes: &[Numbered]) -> Disk<L> {
    let mut disk = Disk::format(20, 9, 1);
    disk.fill_slots();
    built(disk, FILE, spare, anodes)
}

/// Makes the entry f on a formatted disk, and gives the disk its anodes.
fn built<L: Library>(mut disk: Disk<L>, kind: u8, spare: &[u16], anodes: &[Numbered]) -> Disk<L> {
    assert_eq!(disk.make(ROOT, kind, b"f"), 0);
    put_word(disk.block_mut(4), FIRST_ENTRY + ENTRY_ANODE, HEAD);
    disk.set(&[(6, FREE), (7, FREE)]);
    disk.set(anodes);
    let chain: Vec<u16> = disk.table().chain_blocks(HEAD).collect();
    match kind {
        DIRECTORY => chain.iter().for_each(|&block| head_directory_block(disk.block_mut(block))),
        _ => disk.set_size((chain.len() * BLOCK) as u32),
    }
    hang_blocks(&mut disk);
    hang_anodes(&mut disk, spare);
    assert_eq!(disk.check(), 0, "{anodes:?}");
    disk
}

/// Makes a block one of the directory f, without entries.
fn head_directory_block(block: &mut [u8]) {
    block.fill(0);
    block[..2].copy_from_slice(&DIRECTORY_MARK);
    put_word(block, DIRECTORY_OWNER, HEAD);
    put_word(block, DIRECTORY_PARENT, ROOT);
}

/// Puts the blocks that nobody owns on the chain of 3, in 3 itself and in the highest free anodes of slot 0.
fn hang_blocks<L: Library>(disk: &mut Disk<L>) {
    let mut table = disk.table();
    let anode_blocks = used_slots(table.slots()).map(|(_, block)| usize::from(block));
    let owned: BTreeSet<usize> = (0..3)
        .chain(anode_blocks)
        .chain((1..82).flat_map(|number| usize::from(table[number].block)..table[number].end()))
        .collect();
    let mut runs: Vec<Anode> = Vec::new();
    for block in (0..disk.image.len() / BLOCK).filter(|block| !owned.contains(block)) {
        match runs.last_mut() {
            Some(run) if run.end() == block => run.count += 1,
            _ => runs.push(Anode::new(1, block as u16, 0)),
        }
    }
    let highest = (6..82).rev().filter(|&number| table[number].is_free());
    let numbers: Vec<u16> = [TO_BE_FREED].into_iter().chain(highest).take(runs.len()).collect();
    for (place, &run) in runs.iter().enumerate() {
        let next = numbers.get(place + 1).copied().unwrap_or(0);
        table[numbers[place]] = Anode { next, ..run };
    }
    table.write(&mut disk.image);
}

/// Hangs the free anodes but these on the chain of 4.
fn hang_anodes<L: Library>(disk: &mut Disk<L>, spare: &[u16]) {
    let mut table = disk.table();
    let hung: Vec<u16> = table
        .existing()
        .filter(|number| *number >= FIRST_USER && table[*number].is_free() && !spare.contains(number))
        .collect();
    if table[BAD_BLOCKS].is_free() {
        table[BAD_BLOCKS] = Anode::empty(0);
    }
    let mut before = table.chain(BAD_BLOCKS).last().map_or(BAD_BLOCKS, |(number, _)| number);
    for number in hung {
        table[before].next = number;
        table[number] = Anode::empty(0);
        before = number;
    }
    table.write(&mut disk.image);
}

/// Gives f so many blocks.
pub fn resize_to(blocks: u64) -> Call {
    Call::Resize { directory: ROOT, name: b"f".to_vec(), size: blocks * BLOCK as u64 }
}

/// Removes f.
pub fn remove() -> Call {
    Call::Remove { directory: ROOT, name: b"f".to_vec() }
}
