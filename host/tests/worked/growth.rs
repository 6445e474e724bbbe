//! The anode table grows (02, No. 6), by hand, mostly on the small disks with the entry f. Their slot 0 is block 3, and
//! anodes from 82 up are missing until slot 1 gets a block.

use ovenknit_host::calls::{Call, Library, Stamp, BLOCK, DIRECTORY, FILE, ROOT};
use ovenknit_host::model::layout::{
    put_word, Anode, ANODE_SEQUENCE, OWNER_ANODES, ROOT_BLOCK, ROOT_SLOTS, SLOTS,
};

use crate::disk::Disk;
use crate::small::{full, remove, resize_to, stuck, with_spare, Numbered, EMPTIED, FREE};

/// Makes an entry of this name in the root.
fn named(kind: u8, name: &[u8]) -> Call {
    let (name, comment, stamp) = (name.to_vec(), Vec::new(), Stamp::new(7, 8, 9));
    Call::Make { directory: ROOT, kind, name, comment, stamp, protection: 10 }
}

/// Makes a file or a directory in the root.
fn make(kind: u8) -> Call {
    named(kind, b"1")
}

/// The bytes of slot 1's block: the mark, its number, these of its first anodes, and else zeros.
fn anode_block(anodes: &[(u16, u16, u16)]) -> Vec<u8> {
    let mut block = [&b"AB\0\0\0\0\0\0\0\0\0\x01\0\0\0\0"[..], &[0; 496]].concat();
    for (place, (count, start, next)) in anodes.iter().enumerate() {
        put_word(&mut block, 16 + 6 * place, *count);
        put_word(&mut block, 18 + 6 * place, *start);
        put_word(&mut block, 20 + 6 * place, *next);
    }
    block
}

/// Runs a call that must be done, in which slot 1 gets this block, and leave these anodes below 82, these first ones from 82
/// up, all other anodes as they were, and every byte outside the anodes, the root directory and slot 1.
fn grown<L: Library>(
    mut disk: Disk<L>,
    call: Call,
    block: u16,
    anodes: &[Numbered],
    new: &[(u16, u16, u16)],
) {
    // Whatever the block held is gone.
    disk.block_mut(block).fill(0xEE);
    let (mut expected, mut image) = (disk.table(), disk.image.clone());
    for &(number, (count, start, next)) in anodes {
        expected[number] = Anode::new(count, start, next);
    }
    assert_eq!(disk.run(call.clone()).answer, 0, "{call:?}");
    for number in 0..82 {
        assert_eq!(disk.table()[number], expected[number], "anode {number} after {call:?}");
    }
    assert_eq!(disk.block(block), anode_block(new), "block {block} after {call:?}");
    assert_eq!(disk.blocks[usize::from(block)], OWNER_ANODES, "{call:?}");
    image[2 * BLOCK + 98..][..2].copy_from_slice(&block.to_be_bytes());
    for number in (0..disk.image.len() / BLOCK).map(|number| number as u16) {
        if ![3, 4, block].contains(&number) {
            assert_eq!(disk.block(number), &image[usize::from(number) * BLOCK..][..BLOCK], "block {number}");
        }
    }
}

/// Runs a call that must be refused with this number. That nothing changes, `run` sees to.
fn refused<L: Library>(mut disk: Disk<L>, call: Call, number: u32) {
    assert_eq!(disk.run(call.clone()).answer, number, "{call:?}");
}

/// Reading 1: the step keeps what it took, and growth takes the next block.
fn the_step_keeps_what_it_took<L: Library>() {
    let mut disk = Disk::<L>::format(60, 20, 1);
    for place in 0..27 {
        assert_eq!(disk.make(ROOT, FILE, &[b'A' + place]), 0);
    }
    disk.use_up_anodes(&[34]);
    assert_eq!(disk.make(ROOT, FILE, b"1"), 0);
    assert_eq!((disk.anode(34), disk.anode(5)), ((0, 65_535, 0), (1, 4, 82)));
    assert_eq!((disk.anode(82), disk.anode(2)), ((1, 5, 0), (14, 7, 0)));
    assert_eq!(disk.table().slots()[..3], [3, 6, 0]);
    assert_eq!(
        (disk.block(5)[..2].to_vec(), disk.block(6)),
        (b"DB".to_vec(), &anode_block(&[(1, 5, 0)])[..])
    );
    assert_eq!(disk.blocks[4..7], [5, 5, OWNER_ANODES]);
    assert_eq!((disk.anodes[34], disk.anodes[82], disk.anodes[83]), (34, 5, 0));
    // Where one is free for the parent's block too, nothing grows.
    let mut disk = Disk::<L>::format(60, 20, 1);
    for place in 0..27 {
        assert_eq!(disk.make(ROOT, FILE, &[b'A' + place]), 0);
    }
    disk.use_up_anodes(&[34, 81]);
    assert_eq!(disk.make(ROOT, FILE, b"1"), 0);
    assert_eq!((disk.anode(81), disk.table().slots()[1]), ((1, 5, 0), 0));
}

/// Reading 2: make's head, a take and a run that goes back.
fn every_need_may_grow<L: Library>() {
    let free = [(1, (0, 65_535, 6)), (6, (2, 14, 2)), (2, (5, 5, 0))];
    let disk = |file: &[Numbered]| full::<L>(&[&free[..], file].concat());
    grown(disk(&[(20, EMPTIED)]), make(FILE), 5, &[(2, (4, 6, 0))], &[EMPTIED]);
    let after = [(2, (4, 6, 0)), (6, (1, 15, 2)), (20, (1, 12, 82))];
    grown(disk(&[(20, (1, 12, 0))]), resize_to(2), 5, &after, &[(1, 14, 0)]);
    // A cut piece; the run of a head that stays; an upper part, whose extent's own anode serves the lower, or is zeroed.
    let after = [(2, (4, 6, 0)), (6, (2, 14, 82)), (20, (1, 10, 0))];
    grown(disk(&[(20, (3, 10, 0))]), resize_to(1), 5, &after, &[(2, 11, 2)]);
    let after = [(2, (4, 6, 0)), (6, (2, 14, 82)), (20, EMPTIED)];
    grown(disk(&[(20, (3, 10, 0))]), resize_to(0), 5, &after, &[(3, 10, 2)]);
    let free = [(1, (0, 65_535, 2)), (2, (2, 5, 0))];
    let after = [(1, (0, 65_535, 82)), (2, (1, 6, 20)), (20, (2, 8, 0))];
    grown(full::<L>(&[free[0], free[1], (20, (4, 8, 0))]), remove(), 5, &after, &[(2, 10, 2)]);
    let after = [(1, (0, 65_535, 82)), (2, (4, 6, 0)), (20, FREE)];
    grown(full::<L>(&[free[0], (2, (3, 5, 0)), (20, (4, 8, 0))]), remove(), 5, &after, &[(2, 10, 2)]);
    // A run that crosses and has no anode needs two, of which one may be free.
    let crossing = [free[0], free[1], (20, (5, 7, 0))];
    let after = [(1, (0, 65_535, 82)), (2, (1, 6, 83)), (20, (1, 7, 0))];
    grown(full::<L>(&crossing), resize_to(1), 5, &after, &[(2, 10, 2), (2, 8, 0)]);
    let after = [(1, (0, 65_535, 50)), (2, (1, 6, 82)), (20, (1, 7, 0)), (50, (2, 10, 2))];
    grown(with_spare::<L>(&[50], &crossing), resize_to(1), 5, &after, &[(2, 8, 0)]);
}

/// Reading 2: the run in hand is not free for its own growth; what earlier steps of the call gave back is.
fn the_run_in_hand_serves_no_growth<L: Library>() {
    let nothing = [(1, (0, 65_535, 2)), (2, EMPTIED)];
    let anodes = [nothing[0], nothing[1], (20, (3, 12, 0))];
    for blocks in [0, 1, 2] {
        refused(full::<L>(&anodes), resize_to(blocks), 28);
    }
    // Without any need it is done: in a removal the head moves, and up to last reserved the run fills anode 2.
    let mut disk = full::<L>(&anodes);
    assert_eq!(disk.run(remove()).answer, 0);
    assert_eq!((disk.anode(20), disk.table().slots()[1]), ((3, 12, 2), 0));
    let mut disk = full::<L>(&[nothing[0], nothing[1], (20, (3, 7, 0))]);
    assert_eq!(disk.run(resize_to(1)).answer, 0);
    assert_eq!((disk.anode(2), disk.table().slots()[1]), ((2, 8, 0), 0));
    // The upper part of a removed extent is in hand too, and the lower has its turn later.
    refused(full::<L>(&[nothing[0], nothing[1], (20, (4, 8, 0))]), remove(), 28);
    // 17 and 18 went back before: growth takes 17, and the cut piece goes behind 18.
    let anodes = [nothing[0], nothing[1], (20, (3, 12, 21)), (21, (2, 17, 0))];
    let after = [(1, (0, 65_535, 21)), (20, (1, 12, 0)), (21, (1, 18, 82))];
    grown(full::<L>(&anodes), resize_to(1), 17, &after, &[(2, 13, 2)]);
}

/// Reading 3: the place is looked for afresh, and may need no anode any more. The growth stays.
fn the_place_is_looked_for_afresh<L: Library>() {
    // 5 to 11 and 15 to 18 are bad. Growth takes 19, so that 6 is unlinked, and the empty 9 comes last above.
    let anodes = [
        (1, (0, 65_535, 9)),
        (9, (0, 1, 6)),
        (6, (1, 19, 2)),
        (2, EMPTIED),
        (4, (7, 5, 30)),
        (30, (4, 15, 0)),
        (20, (3, 12, 0)),
    ];
    let after = [(6, FREE), (9, (2, 13, 2)), (20, (1, 12, 0))];
    grown(full::<L>(&anodes), resize_to(1), 19, &after, &[]);
    // The same up to last reserved, where an empty 2 comes last.
    let anodes = [(1, (0, 65_535, 2)), (2, (0, 300, 6)), (6, (1, 5, 0)), (20, (3, 7, 0))];
    let after = [(2, (2, 8, 0)), (6, FREE), (20, (1, 7, 0))];
    grown(full::<L>(&anodes), resize_to(1), 5, &after, &[]);
    // Growth empties 2 itself, which stays, and is filled.
    let anodes = [(1, (0, 65_535, 2)), (2, (1, 5, 0)), (20, (3, 7, 0))];
    grown(full::<L>(&anodes), resize_to(1), 5, &[(2, (2, 8, 0)), (20, (1, 7, 0))], &[]);
    // On the other side nothing changes by that, and the anode is needed still.
    let anodes = [(1, (0, 65_535, 2)), (2, (1, 5, 0)), (20, (3, 12, 0))];
    let after = [(1, (0, 65_535, 82)), (2, EMPTIED), (20, (1, 12, 0))];
    grown(full::<L>(&anodes), resize_to(1), 5, &after, &[(2, 13, 2)]);
}

/// Reading 4: an anode that growth itself emptied is zeroed, and may be the lowest free one.
fn an_anode_that_growth_emptied_may_serve<L: Library>() {
    let free = [(1, (0, 65_535, 6)), (6, (1, 19, 2)), (2, EMPTIED)];
    let disk = |file: &[Numbered]| full::<L>(&[&free[..], file].concat());
    let after = [(1, (0, 65_535, 2)), (6, EMPTIED)];
    grown(disk(&[(20, EMPTIED)]), make(FILE), 19, &after, &[]);
    let after = [(1, (0, 65_535, 6)), (6, (2, 13, 2)), (20, (1, 12, 0))];
    grown(disk(&[(20, (3, 12, 0))]), resize_to(1), 19, &after, &[]);
    // So may one that came from the file's own chain in this call.
    let anodes = [(1, (0, 65_535, 2)), (2, EMPTIED), (20, (3, 12, 21)), (21, (1, 17, 0))];
    let after = [(1, (0, 65_535, 21)), (20, (1, 12, 0)), (21, (2, 13, 2))];
    grown(full::<L>(&anodes), resize_to(1), 17, &after, &[]);
    // The take leaves one block in 6, which growth takes.
    let anodes = [(1, (0, 65_535, 6)), (6, (2, 14, 2)), (2, EMPTIED), (20, (1, 12, 0))];
    let after = [(1, (0, 65_535, 2)), (6, (1, 14, 0)), (20, (1, 12, 6))];
    grown(full::<L>(&anodes), resize_to(2), 15, &after, &[]);
    // Anode 2 is none of them.
    let anodes = [(1, (0, 65_535, 2)), (2, (1, 5, 0)), (20, EMPTIED)];
    grown(full::<L>(&anodes), make(FILE), 5, &[(2, EMPTIED)], &[EMPTIED]);
}

/// Reading 5: growth may use the block that a later step needs, which is 27 then. No block for the growth itself is 28.
fn growth_may_use_the_last_block<L: Library>() {
    let five = [(1, (0, 65_535, 2)), (2, (1, 5, 0)), (20, EMPTIED)];
    refused(full::<L>(&five), make(DIRECTORY), 27);
    grown(full::<L>(&five), make(FILE), 5, &[(2, EMPTIED)], &[EMPTIED]);
    let nothing = [(1, (0, 65_535, 2)), (2, EMPTIED), (20, EMPTIED)];
    for kind in [FILE, DIRECTORY] {
        refused(full::<L>(&nothing), make(kind), 28);
    }
    // The take has the last block itself.
    let anodes = [(1, (0, 65_535, 2)), (2, (1, 5, 0)), (20, (1, 12, 0))];
    for blocks in [2, 3, u64::from(u32::MAX)] {
        refused(full::<L>(&anodes), resize_to(blocks), 28);
    }
    let anodes = [(1, (0, 65_535, 2)), (2, (2, 5, 0)), (20, (1, 12, 0))];
    grown(full::<L>(&anodes), resize_to(2), 6, &[(2, EMPTIED), (20, (1, 12, 82))], &[(1, 5, 0)]);
    for blocks in [3, 4, u64::from(u32::MAX)] {
        refused(full::<L>(&anodes), resize_to(blocks), 27);
    }
}

/// Reading 5 with a full parent and one anode free: a file needs a block and one for growth, a directory one more.
fn a_full_parent_needs_a_block_besides_growth<L: Library>() {
    for (blocks, file, directory) in [(5, 27, 27), (6, 28, 27), (7, 0, 28), (8, 0, 0)] {
        let mut disk = Disk::<L>::format(blocks, blocks as u16 - 1, 1);
        for place in 0..27 {
            assert_eq!(disk.make(ROOT, FILE, &[b'A' + place]), 0);
        }
        disk.use_up_anodes(&[60]);
        let image = disk.image.clone();
        assert_eq!(disk.run(make(FILE)).answer, file, "{blocks} blocks");
        let slot = if file == 0 { 6 } else { 0 };
        assert_eq!(disk.table().slots()[1], slot, "{blocks} blocks");
        disk.image = image;
        assert_eq!(disk.run(make(DIRECTORY)).answer, directory, "{blocks} blocks");
        let slot = if directory == 0 { 7 } else { 0 };
        assert_eq!(disk.table().slots()[1], slot, "{blocks} blocks");
    }
}

/// Reading 6: up to last reserved first, then above. No anode owns the block.
fn the_block_is_taken_as_a_directorys_is<L: Library>() {
    // 6 comes first in the list, 2 comes first for a directory, and 7 behind it.
    let free = [(1, (0, 65_535, 6)), (6, (3, 14, 2)), (20, EMPTIED)];
    for (lower, block, after) in [
        (vec![(2, (5, 5, 0))], 5, vec![(2, (4, 6, 0))]),
        (vec![(2, (0, 300, 7)), (7, (2, 8, 0))], 8, vec![(7, (1, 9, 0))]),
        (vec![(2, (1, 9, 7)), (7, (2, 6, 0))], 9, vec![(2, (0, 65_535, 7))]),
        (vec![(2, EMPTIED)], 14, vec![(6, (2, 15, 2))]),
    ] {
        grown(full::<L>(&[&free[..], &lower].concat()), make(FILE), block, &after, &[EMPTIED]);
    }
    let disk = full::<L>(&[&free[..], &[(2, (5, 5, 0))]].concat());
    let owned = |disk: &Disk<L>| {
        let table = disk.table();
        let numbers = table.existing().filter(|&number| number != 0);
        numbers.map(|number| usize::from(table[number].count)).sum::<usize>()
    };
    let (before, mut disk) = (owned(&disk), disk);
    assert_eq!(disk.run(make(FILE)).answer, 0);
    assert_eq!(owned(&disk), before - 1);
}

/// Reading 6: the lowest empty slot, though it lies below used ones.
fn the_lowest_empty_slot_grows<L: Library>() {
    // Blocks 3 and 4 are the anodes of slots 0 and 2; 6 to 9 are free below.
    let mut disk = Disk::<L>::format(20, 9, 2);
    put_word(disk.block_mut(ROOT_BLOCK), ROOT_SLOTS + 2, 0);
    put_word(disk.block_mut(ROOT_BLOCK), ROOT_SLOTS + 4, 4);
    put_word(disk.block_mut(4), ANODE_SEQUENCE, 2);
    disk.use_up_anodes(&[]);
    disk.block_mut(6).fill(0xEE);
    assert_eq!(disk.make(ROOT, FILE, b"a"), 0);
    assert_eq!((disk.table().slots()[..5].to_vec(), disk.anode(82)), (vec![3, 6, 4, 0, 0], EMPTIED));
    assert_eq!((disk.block(6), disk.blocks[6]), (&anode_block(&[EMPTIED])[..], OWNER_ANODES));
    // Its other anodes come next; then slot 3 grows.
    assert_eq!(disk.make(ROOT, FILE, b"b"), 0);
    assert_eq!((disk.anode(83), disk.table().slots()[3]), (EMPTIED, 0));
    disk.use_up_anodes(&[]);
    assert_eq!(disk.make(ROOT, FILE, b"c"), 0);
    assert_eq!((disk.table().slots()[..5].to_vec(), disk.anode(246)), (vec![3, 6, 4, 7, 0], EMPTIED));
    assert_eq!((&disk.block(7)[..2], disk.block(7)[11], disk.blocks[7]), (&b"AB"[..], 3, OWNER_ANODES));
}

/// 28 where no slot is empty, though blocks are free: for every need.
fn no_empty_slot_is_28<L: Library>() {
    let free = [(1, (0, 65_535, 6)), (6, (2, 14, 2)), (2, (5, 5, 0))];
    let disk = |file: &[Numbered]| stuck::<L>(&[], &[&free[..], file].concat());
    for kind in [FILE, DIRECTORY] {
        refused(disk(&[(20, EMPTIED)]), make(kind), 28);
    }
    refused(disk(&[(20, (1, 12, 0))]), resize_to(2), 28);
    for blocks in [0, 1] {
        refused(disk(&[(20, (3, 10, 0))]), resize_to(blocks), 28);
    }
    refused(stuck::<L>(&[], &[(1, (0, 65_535, 2)), (2, (2, 5, 0)), (20, (4, 8, 0))]), remove(), 28);
}

/// Files are made until nothing more goes: then every slot is used, every anode from 5 up is in use, and blocks are free.
fn the_table_grows_to_its_end<L: Library>() {
    let mut disk = Disk::<L>::format(300, 250, 1);
    let mut files = 0u32;
    let answer = loop {
        let call = named(FILE, format!("{files:04}").as_bytes());
        match disk.compare(&call).answer {
            0 => files += 1,
            answer => break answer,
        }
    };
    assert_eq!(answer, 28);
    let table = disk.table();
    assert!((5..=3_443).all(|number| table[number].in_use()));
    // Anode 6 holds the blocks above last reserved; the root directory has the others, 22 entries in a block.
    let blocks = table.chain(ROOT).count();
    assert_eq!(files as usize + blocks - 1, 3_444 - 7);
    assert_eq!(disk.summary(), [300, 300 - 3 - SLOTS as u32 - blocks as u32, files, 1]);
}

both!(
    the_step_keeps_what_it_took,
    every_need_may_grow,
    the_run_in_hand_serves_no_growth,
    the_place_is_looked_for_afresh,
    an_anode_that_growth_emptied_may_serve,
    growth_may_use_the_last_block,
    a_full_parent_needs_a_block_besides_growth,
    the_block_is_taken_as_a_directorys_is,
    the_lowest_empty_slot_grows,
    no_empty_slot_is_28,
    the_table_grows_to_its_end,
);
