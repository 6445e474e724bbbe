//! Safe changes (02, No. 8) by hand. Most start from the disk formatted with N 20, L 9 and one anode block: 3 is the anode block,
//! 4 the root directory, 2 = (5, 5, 0), 5 = (1, 4, 0) and 6 = (10, 10, 2). There slot 0 and the root directory are the only
//! blocks that move besides the file's.

use ovenknit_host::calls::{Call, Library, Stamp, BLOCK, BLOCK_WRITE, DIRECTORY, FILE, ROOT, UNREAD};
use ovenknit_host::model::layout::{word, Anode, OWNER_ANODES, ROOT_SLOTS};

use crate::disk::Disk;
use crate::small::{full, with_spare, Numbered, EMPTIED, FREE};

/// More than any list of these disks.
const ROOM: usize = 70 * BLOCK_WRITE;

fn make(kind: u8, name: &[u8]) -> Call {
    let (name, comment, stamp) = (name.to_vec(), Vec::new(), Stamp::new(7, 8, 9));
    Call::SafeMake { directory: ROOT, kind, name, comment, stamp, protection: 10, room: ROOM }
}

fn resize(size: u64) -> Call {
    Call::SafeResize { directory: ROOT, name: b"f".to_vec(), size, room: ROOM }
}

fn write(offset: u64, data: &[u8]) -> Call {
    Call::SafeWrite { directory: ROOT, name: b"f".to_vec(), offset, data: data.to_vec(), room: ROOM }
}

fn remove() -> Call {
    Call::SafeRemove { directory: ROOT, name: b"f".to_vec(), room: ROOM }
}

/// Runs a call that must be done, write these blocks in this order, and leave these anodes, all others as they were, and every
/// byte of every block that is not written.
fn written<L: Library>(disk: &mut Disk<L>, call: Call, blocks: &[u16], anodes: &[Numbered]) {
    let (before, mut table) = (disk.image.clone(), disk.table());
    for &(number, (count, block, next)) in anodes {
        table[number] = Anode::new(count, block, next);
    }
    let outcome = disk.run(call.clone());
    assert_eq!((outcome.answer, outcome.output.count), (0, [blocks.len() as u32]), "{call:?}");
    let (list, past) = outcome.output.writes.split_at(blocks.len() * BLOCK_WRITE);
    let mut image = before;
    for (write, &block) in list.chunks(BLOCK_WRITE).zip(blocks) {
        assert_eq!(word(write, 0), block, "{call:?}");
        image[usize::from(block) * BLOCK..][..BLOCK].copy_from_slice(&write[2..]);
    }
    assert!(image == disk.image, "the list does not make the image of {call:?}");
    assert!(past.iter().all(|&byte| byte == UNREAD));
    for number in 0..82 {
        assert_eq!(disk.table()[number], table[number], "anode {number} after {call:?}");
    }
}

fn refused<L: Library>(disk: &mut Disk<L>, call: Call, number: u32) {
    let outcome = disk.run(call.clone());
    assert_eq!((outcome.answer, outcome.output.count), (number, [0]), "{call:?}");
    assert!(outcome.output.writes.iter().all(|&byte| byte == UNREAD), "{call:?}");
}

/// The disk with a file f of so many bytes from 1 up, made without safe changes: its head is 7.
fn with_file<L: Library>(size: usize) -> Disk<L> {
    let mut disk = Disk::format(20, 9, 1);
    assert_eq!(disk.make(ROOT, FILE, b"f"), 0);
    let bytes: Vec<u8> = (0..size).map(|place| place as u8 | 1).collect();
    assert_eq!((disk.resize(b"f", size as u64), disk.write(b"f", 0, &bytes)), (0, 0));
    disk
}

fn a_make_moves_the_directory_block_and_the_anode_block<L: Library>() {
    // 4 moves to 5 and 3 to 6. Then 3 and 4 go back behind 2, in the lowest free anode.
    let mut disk = Disk::<L>::format(20, 9, 1);
    let after = [(5, (1, 5, 0)), (2, (3, 7, 8)), (7, EMPTIED), (8, (2, 3, 0))];
    written(&mut disk, make(FILE, b"f"), &[5, 6, 2], &after);
    assert_eq!(disk.blocks[..8], [65_535, 65_535, 65_535, 1, 1, 5, OWNER_ANODES, 1]);
    assert_eq!(word(disk.block(2), ROOT_SLOTS), 6);
    // A directory takes its own block first.
    let mut disk = Disk::<L>::format(20, 9, 1);
    let after = [(7, (1, 5, 0)), (5, (1, 6, 0)), (2, (2, 8, 8)), (8, (2, 3, 0))];
    written(&mut disk, make(DIRECTORY, b"d"), &[5, 6, 7, 2], &after);
    assert_eq!(disk.block(5)[..16], *b"DB\0\0\0\0\0\0\0\0\0\0\0\x07\0\x05");
}

/// The parent's new block holds the entry, and no old one changes.
fn a_full_directory_takes_a_block_and_none_moves<L: Library>() {
    let mut disk = Disk::<L>::format(20, 9, 1);
    for place in 0..27 {
        assert_eq!(disk.make(ROOT, FILE, &[b'A' + place]), 0);
    }
    // The 27 files have 7 to 33. Then 34 is the new head, 35 the new block's anode, and 36 has 3.
    let after = [(34, EMPTIED), (5, (1, 4, 35)), (35, (1, 5, 0)), (2, (3, 7, 36)), (36, (1, 3, 0))];
    written(&mut disk, make(FILE, b"1"), &[5, 6, 2], &after);
    assert_eq!(disk.block(5)[16 + 16], b'1');
}

fn a_resize_takes_all_blocks_anew<L: Library>() {
    // From no block to two.
    let after = [(7, (2, 10, 0)), (6, (8, 12, 2)), (5, (1, 5, 0)), (2, (3, 7, 8)), (8, (2, 3, 0))];
    written(&mut with_file::<L>(0), resize(600), &[10, 11, 5, 6, 2], &after);
    // From two blocks to three: bytes behind the old size are 0, and 10 and 11 go back behind 6.
    let mut disk = with_file::<L>(600);
    disk.block_mut(11)[88..].fill(0xEE);
    let after =
        [(7, (3, 12, 0)), (6, (5, 15, 9)), (5, (1, 5, 0)), (2, (3, 7, 8)), (8, (2, 3, 0)), (9, (2, 10, 2))];
    written(&mut disk, resize(1_025), &[12, 13, 14, 5, 6, 2], &after);
    assert_eq!(disk.block(12), disk.block(10));
    assert_eq!(
        (disk.block(13)[87], &disk.block(13)[88..], disk.block(14)),
        (87, &[0; 424][..], &[0; 512][..])
    );
    // From two to one: what lies behind the new size comes along.
    let mut disk = with_file::<L>(600);
    let after =
        [(7, (1, 12, 0)), (6, (7, 13, 9)), (5, (1, 5, 0)), (2, (3, 7, 8)), (8, (2, 3, 0)), (9, (2, 10, 2))];
    written(&mut disk, resize(100), &[12, 5, 6, 2], &after);
    assert_eq!(disk.block(12), disk.block(10));
    // To none: the head stays, emptied.
    let after =
        [(7, EMPTIED), (6, (8, 12, 9)), (5, (1, 5, 0)), (2, (3, 7, 8)), (8, (2, 3, 0)), (9, (2, 10, 2))];
    written(&mut with_file::<L>(600), resize(0), &[5, 6, 2], &after);
}

/// The same size moves no directory block, and bytes behind the size stay.
fn the_same_size_takes_all_blocks_anew<L: Library>() {
    let mut disk = with_file::<L>(600);
    disk.block_mut(11)[88..].fill(0xEE);
    let after = [(7, (2, 12, 0)), (6, (6, 14, 9)), (2, (4, 6, 8)), (8, (1, 3, 0)), (9, (2, 10, 2))];
    written(&mut disk, resize(600), &[12, 13, 5, 2], &after);
    assert_eq!((disk.block(12), disk.block(13)), (disk.block(10), disk.block(11)));
    // Without blocks only the anode block moves.
    let after = [(2, (4, 6, 8)), (8, (1, 3, 0))];
    written(&mut with_file::<L>(0), resize(0), &[5, 2], &after);
}

fn a_write_takes_all_blocks_anew<L: Library>() {
    let mut disk = with_file::<L>(600);
    let after = [(7, (2, 12, 0)), (6, (6, 14, 9)), (2, (4, 6, 8)), (8, (1, 3, 0)), (9, (2, 10, 2))];
    written(&mut disk, write(510, b"abcd"), &[12, 13, 5, 2], &after);
    assert_eq!((&disk.block(12)[509..], &disk.block(13)[..3]), (&b"\xfdab"[..], &b"cd\x03"[..]));
    assert_eq!(
        (&disk.block(12)[..510], &disk.block(13)[2..]),
        (&disk.block(10)[..510], &disk.block(11)[2..])
    );
    // No bytes at the end are written too.
    written(&mut with_file::<L>(600), write(600, b""), &[12, 13, 5, 2], &after);
    refused(&mut with_file::<L>(600), write(600, b"x"), 26);
}

fn a_removal_zeroes_its_chain_first<L: Library>() {
    // 7 is free then, and serves 3 and 4.
    let mut disk = with_file::<L>(600);
    let after = [(7, (2, 3, 0)), (6, (8, 12, 8)), (5, (1, 5, 0)), (2, (3, 7, 7)), (8, (2, 10, 2))];
    written(&mut disk, remove(), &[5, 6, 2], &after);
    assert_eq!(disk.block(5)[16..], [0; 496]);
    assert!(disk.block(4)[16..] != [0; 496], "the old place keeps its bytes");
}

/// A chain of several anodes is emptied before the first take, and what it had counts as free.
fn the_rest_of_a_chain_counts_as_free<L: Library>() {
    // No anode is free. 12 and 14 are taken for the file, and do not touch. The first take empties 6, which is then the lowest
    // free one and serves 14; 21 and 22 serve what goes back.
    let anodes = [
        (1, (0, 65_535, 6)),
        (6, (1, 12, 9)),
        (9, (4, 14, 2)),
        (2, (5, 5, 0)),
        (20, (1, 10, 21)),
        (21, (0, 300, 22)),
        (22, (1, 11, 0)),
    ];
    let after = [
        (1, (0, 65_535, 9)),
        (9, (3, 15, 22)),
        (20, (1, 12, 6)),
        (6, (1, 14, 0)),
        (2, (4, 6, 21)),
        (21, (1, 3, 0)),
        (22, (2, 10, 2)),
    ];
    written(&mut full::<L>(&anodes), write(0, b"x"), &[12, 14, 5, 2], &after);
}

/// Reading 5: 27 over all new blocks, before any 28.
fn no_free_block_comes_first<L: Library>() {
    // N 6 to 8 have 1 to 3 blocks free.
    for (blocks, file, directory) in [(6, 27, 27), (7, 0, 27), (8, 0, 0)] {
        let disk = || Disk::<L>::format(blocks, blocks as u16 - 1, 1);
        assert_eq!(disk().run(make(FILE, b"f")).answer, file, "{blocks} blocks");
        assert_eq!(disk().run(make(DIRECTORY, b"f")).answer, directory, "{blocks} blocks");
    }
    // f has one block of the 15 that were free; 14 are left, of which two are for the entry and the anodes.
    refused(&mut with_file::<L>(1), resize(12 * 512 + 1), 27);
    assert_eq!(with_file::<L>(1).run(resize(12 * 512)).answer, 0);
    refused(&mut with_file::<L>(1), resize(u64::MAX), 27);
    // 7 blocks and one for the anodes are all 8 that are left; of 8 blocks 7 are left.
    assert_eq!(with_file::<L>(7 * 512).run(write(0, b"x")).answer, 0);
    refused(&mut with_file::<L>(8 * 512), write(0, b""), 27);
    refused(&mut with_file::<L>(8 * 512), resize(8 * 512), 27);
    // A removal needs two, and frees none for itself.
    assert_eq!(with_file::<L>(13 * 512).run(remove()).answer, 0);
    refused(&mut with_file::<L>(14 * 512), remove(), 27);
    // No anode is free either.
    let nearly = [(1, (0, 65_535, 2)), (2, (1, 5, 0)), (20, (1, 12, 0))];
    for call in [make(FILE, b"1"), make(DIRECTORY, b"1"), remove(), resize(0), write(0, b"x")] {
        refused(&mut full::<L>(&nearly), call, 27);
    }
}

/// No need grows the table: make's head, a take, a block that goes back.
fn no_free_anode_is_never_mended<L: Library>() {
    let free = [(1, (0, 65_535, 6)), (6, (6, 14, 2)), (2, (5, 5, 0))];
    let disk = |spare: &[u16], file: Numbered| with_spare::<L>(spare, &[&free[..], &[file]].concat());
    // The head; with one anode the head, and none for 3.
    refused(&mut disk(&[], (20, (2, 10, 0))), make(FILE, b"1"), 28);
    refused(&mut disk(&[50], (20, (2, 10, 0))), make(FILE, b"1"), 28);
    let after = [(50, EMPTIED), (60, (2, 3, 0)), (5, (1, 5, 0)), (2, (3, 7, 60))];
    written(&mut disk(&[50, 60], (20, (2, 10, 0))), make(FILE, b"1"), &[5, 6, 2], &after);
    // A removal: 20 serves 3 and 4, and 10 finds none; with one more it does.
    refused(&mut disk(&[], (20, (2, 10, 0))), remove(), 28);
    let after = [(20, (2, 3, 0)), (50, (2, 10, 2)), (6, (6, 14, 50)), (5, (1, 5, 0)), (2, (3, 7, 20))];
    written(&mut disk(&[50], (20, (2, 10, 0))), remove(), &[5, 6, 2], &after);
    // 12 and 13 join 6 from before, the higher only if the lower has not gone first: rising order.
    refused(&mut disk(&[], (20, (2, 12, 0))), remove(), 28);
    let after = [(20, (2, 3, 0)), (6, (7, 13, 2)), (5, (1, 5, 0)), (2, (3, 7, 20))];
    written(&mut disk(&[], (20, (1, 13, 0))), remove(), &[5, 6, 2], &after);
    // A take that needs an anode, where none is free: the file is written in two pieces.
    let pieces = [(1, (0, 65_535, 2)), (2, (1, 5, 7)), (7, (3, 7, 0)), (20, (2, 12, 0))];
    refused(&mut full::<L>(&pieces), write(0, b"x"), 28);
}

/// A block that goes back fills an empty last anode, and joins it before its start or after its end.
fn one_block_joins_or_fills<L: Library>() {
    // 2 is emptied by the takes of 5 and 6, and filled by 3; then 4 comes behind it.
    let anodes = [(1, (0, 65_535, 6)), (6, (6, 14, 2)), (2, (2, 5, 0)), (20, EMPTIED)];
    let after = [(20, FREE), (2, (2, 3, 0)), (5, (1, 5, 0))];
    written(&mut full::<L>(&anodes), remove(), &[5, 6, 2], &after);
    // The upper side has no anode but 1, which takes nothing.
    let anodes = [(1, (0, 65_535, 2)), (2, (3, 5, 0)), (20, (1, 12, 0))];
    let after = [(1, (0, 65_535, 50)), (20, (2, 3, 0)), (50, (1, 12, 2)), (5, (1, 5, 0)), (2, (1, 7, 20))];
    written(&mut with_spare::<L>(&[50], &anodes), remove(), &[5, 6, 2], &after);
}

/// 32 comes last, a byte decides, and an empty buffer is refused like any other.
fn a_short_buffer_comes_last<L: Library>() {
    let mut disk = with_file::<L>(600);
    for room in [0, 1, BLOCK_WRITE, 4 * BLOCK_WRITE - 1] {
        refused(&mut disk, write(0, b"x").with_room(room), 32);
    }
    refused(&mut disk, write(601, b"").with_room(0), 26);
    refused(&mut disk, resize(20 * 512).with_room(0), 27);
    refused(&mut disk, make(FILE, b"F").with_room(0), 23);
    refused(
        &mut full::<L>(&[(1, (0, 65_535, 2)), (2, (5, 5, 0)), (20, EMPTIED)]),
        make(FILE, b"1").with_room(0),
        28,
    );
    let outcome = disk.run(write(0, b"x").with_room(4 * BLOCK_WRITE));
    assert_eq!((outcome.answer, outcome.output.count), (0, [4]));
}

/// Every used slot's block moves, by slot, and only those slots.
fn every_anode_block_moves_by_slot<L: Library>() {
    let mut disk = Disk::<L>::format(30, 12, 3);
    assert_eq!(disk.make(ROOT, FILE, b"f"), 0);
    // Slots 0 to 2 are 3 to 5, and the root directory is 6. The file has no blocks.
    let after = [(2, (3, 10, 8)), (8, (3, 3, 0))];
    written(&mut disk, write(0, b""), &[7, 8, 9, 2], &after);
    assert_eq!(disk.table().slots()[..4], [7, 8, 9, 0]);
    assert_eq!([7, 8, 9].map(|block| disk.block(block)[11]), [0, 1, 2]);
}

both!(
    a_make_moves_the_directory_block_and_the_anode_block,
    a_full_directory_takes_a_block_and_none_moves,
    a_resize_takes_all_blocks_anew,
    the_same_size_takes_all_blocks_anew,
    a_write_takes_all_blocks_anew,
    a_removal_zeroes_its_chain_first,
    the_rest_of_a_chain_counts_as_free,
    no_free_block_comes_first,
    no_free_anode_is_never_mended,
    one_block_joins_or_fills,
    a_short_buffer_comes_last,
    every_anode_block_moves_by_slot,
);
