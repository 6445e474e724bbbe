//! Taking and giving back blocks, by hand. On 20 blocks with L 9 and one anode block, block 3 holds the anodes, 4 the
//! root directory, 5 to 9 are free below, 10 to 19 above. Where 28 is to come though blocks are free, all slots are used.

use ovenknit_host::calls::{Library, DIRECTORY, FILE, ROOT};

use crate::disk::Disk;

fn taking_and_giving_back<L: Library>() {
    let mut disk = Disk::<L>::format(20, 9, 1);
    assert_eq!(disk.make(ROOT, FILE, b"a"), 0);
    assert_eq!(disk.anode(7), (0, 65_535, 0));
    assert_eq!(disk.resize(b"a", 513), 0);
    assert_eq!((disk.anode(7), disk.anode(6)), ((2, 10, 0), (8, 12, 2)));

    // A directory's block comes from below.
    assert_eq!(disk.make(ROOT, DIRECTORY, b"d"), 0);
    assert_eq!((disk.anode(8), disk.anode(2)), ((1, 5, 0), (4, 6, 0)));
    assert_eq!(disk.block(5)[..18], *b"DB\0\0\0\0\0\0\0\0\0\0\0\x08\0\x05\0\0");

    // The upper side is used up: its anode is unlinked and zeroed.
    assert_eq!(disk.make(ROOT, FILE, b"b"), 0);
    assert_eq!(disk.resize(b"b", 8 * 512), 0);
    assert_eq!((disk.anode(9), disk.anode(6), disk.anode(1)), ((8, 12, 0), (0, 0, 0), (0, 65_535, 2)));

    // Data goes below then; the block is not the end of the last anode, so 6 is appended, and grows.
    assert_eq!(disk.resize(b"b", 9 * 512), 0);
    assert_eq!((disk.anode(9), disk.anode(6), disk.anode(2)), ((8, 12, 6), (1, 6, 0), (3, 7, 0)));
    assert_eq!(disk.resize(b"b", 12 * 512), 0);
    assert_eq!((disk.anode(6), disk.anode(2)), ((4, 6, 0), (0, 65_535, 0)));
    assert_eq!(disk.resize(b"b", 12 * 512 + 1), 27);
    assert_eq!(disk.make(8, DIRECTORY, b"x"), 27);

    // Above, nothing stands between 1 and 2: an anode is inserted, and joined before its start.
    assert_eq!(disk.resize(b"a", 512), 0);
    assert_eq!((disk.anode(7), disk.anode(10), disk.anode(1)), ((1, 10, 0), (1, 11, 2), (0, 65_535, 10)));
    assert_eq!(disk.resize(b"a", 0), 0);
    assert_eq!((disk.anode(7), disk.anode(10)), ((0, 65_535, 0), (2, 10, 2)));

    // Below, the empty anode 2 is filled, and joined before its start; the emptied 6 is unlinked and zeroed.
    assert_eq!(disk.resize(b"b", 11 * 512), 0);
    assert_eq!((disk.anode(6), disk.anode(2)), ((3, 6, 0), (1, 9, 0)));
    assert_eq!(disk.resize(b"b", 8 * 512), 0);
    assert_eq!((disk.anode(9), disk.anode(6), disk.anode(2)), ((8, 12, 0), (0, 0, 0), (4, 6, 0)));

    // 19 is neither beside 10 and 11 nor fills anything: the lowest free anode is inserted after 10.
    assert_eq!(disk.resize(b"b", 7 * 512), 0);
    assert_eq!((disk.anode(10), disk.anode(6)), ((2, 10, 6), (1, 19, 2)));
    // The directory's block joins anode 2 before its start, and its head is zeroed.
    assert_eq!(disk.remove(ROOT, b"d"), 0);
    assert_eq!((disk.anode(2), disk.anode(8)), ((5, 5, 0), (0, 0, 0)));
    assert_eq!(disk.remove(ROOT, b"b"), 0);
    assert_eq!((disk.anode(9), disk.anode(6)), ((0, 0, 0), (8, 12, 2)));
    assert_eq!(disk.remove(ROOT, b"a"), 0);
    assert_eq!(disk.summary(), [20, 15, 0, 1]);
}

fn joining_after_the_end<L: Library>() {
    let mut disk = Disk::<L>::format(20, 9, 1);
    assert_eq!(disk.make(ROOT, FILE, b"a"), 0);
    // The file has 13 and 14; above, 10 and 11 are in 6, 15 to 19 in 8, and 12 in 9, which is the last.
    disk.set(&[(6, (2, 10, 8)), (8, (5, 15, 9)), (9, (1, 12, 2)), (7, (2, 13, 0))]);
    disk.set_size(1024);
    assert_eq!(disk.check(), 0);
    // 14 is not beside 12, so a new anode; 13 then joins before the start of the new one.
    assert_eq!(disk.resize(b"a", 512), 0);
    assert_eq!((disk.anode(9), disk.anode(10)), ((1, 12, 10), (1, 14, 2)));
    assert_eq!(disk.resize(b"a", 0), 0);
    assert_eq!((disk.anode(9), disk.anode(10), disk.anode(7)), ((1, 12, 10), (2, 13, 2), (0, 65_535, 0)));
    // With one block only, 13 joins after the end of 9.
    disk.set(&[(9, (1, 12, 2)), (10, (0, 0, 0)), (7, (1, 13, 0)), (8, (6, 14, 9))]);
    disk.set_size(512);
    assert_eq!(disk.check(), 0);
    assert_eq!(disk.resize(b"a", 0), 0);
    assert_eq!((disk.anode(9), disk.anode(7)), ((2, 12, 2), (0, 65_535, 0)));
}

fn empty_anodes_keep_their_places<L: Library>() {
    let mut disk = Disk::<L>::format(20, 9, 1);
    assert_eq!(disk.make(ROOT, FILE, b"a"), 0);
    // Free list: 1, 10 (empty), 6, 13, 11 (empty), 2, 12 (empty). File: 7 (empty), 8 with 12 and 13, 9 (empty).
    disk.set(&[
        (1, (0, 65_535, 10)),
        (10, (0, 1, 6)),
        (6, (2, 10, 13)),
        (13, (6, 14, 11)),
        (11, (0, 300, 2)),
        (2, (5, 5, 12)),
        (12, (0, 65_535, 0)),
        (7, (0, 65_000, 8)),
        (8, (2, 12, 9)),
        (9, (0, 12, 0)),
    ]);
    disk.set_size(1024);
    assert_eq!(disk.check(), 0);
    // The block goes into the empty last anode, not to the end of 8, and the free list's empty ones stay.
    assert_eq!(disk.resize(b"a", 1025), 0);
    assert_eq!((disk.anode(9), disk.anode(6)), ((1, 10, 0), (1, 11, 13)));
    // Given back: 9 is unlinked and zeroed, 10 fills the last upper anode, the empty 11.
    assert_eq!(disk.resize(b"a", 1024), 0);
    assert_eq!((disk.anode(8), disk.anode(9), disk.anode(11)), ((2, 12, 0), (0, 0, 0), (1, 10, 2)));
    // 13 is not beside 10; 9 is the lowest free anode. 12 goes before the start of it, and 8 is gone.
    assert_eq!(disk.resize(b"a", 512), 0);
    assert_eq!((disk.anode(8), disk.anode(11), disk.anode(9)), ((1, 12, 0), (1, 10, 9), (1, 13, 2)));
    assert_eq!(disk.resize(b"a", 0), 0);
    assert_eq!((disk.anode(7), disk.anode(8), disk.anode(9)), ((0, 65_000, 0), (0, 0, 0), (2, 12, 2)));
    // The next block is the first of the first non-empty extent: 11 in anode 6, which is emptied and used again.
    assert_eq!(disk.resize(b"a", 1), 0);
    assert_eq!((disk.anode(7), disk.anode(6), disk.anode(10)), ((1, 11, 0), (0, 0, 0), (0, 1, 13)));
}

fn shrinking_from_before_an_empty_tail<L: Library>() {
    let mut disk = Disk::<L>::format(20, 9, 1);
    assert_eq!(disk.make(ROOT, FILE, b"a"), 0);
    disk.set(&[(6, (9, 11, 2)), (7, (1, 10, 8)), (8, (0, 77, 0))]);
    disk.set_size(5);
    assert_eq!(disk.check(), 0);
    // The head is emptied and keeps its next; the block joins before the start of 6.
    assert_eq!(disk.resize(b"a", 0), 0);
    assert_eq!((disk.anode(7), disk.anode(8), disk.anode(6)), ((0, 65_535, 8), (0, 77, 0), (10, 10, 2)));
    assert_eq!(disk.remove(ROOT, b"a"), 0);
    assert_eq!((disk.anode(7), disk.anode(8)), ((0, 0, 0), (0, 0, 0)));
}

fn the_anode_just_emptied_counts_as_free<L: Library>() {
    let mut disk = Disk::<L>::format(20, 9, 1);
    disk.fill_slots();
    assert_eq!(disk.make(ROOT, FILE, b"a"), 0);
    // The file has 12; above, 10 is in 6, 13 to 19 in 8, 11 in 9.
    disk.set(&[(6, (1, 10, 8)), (8, (7, 13, 9)), (9, (1, 11, 2)), (7, (1, 12, 0))]);
    disk.set_size(512);
    disk.use_up_anodes(&[]);
    assert_eq!(disk.make(ROOT, FILE, b"b"), 28);
    // 10 empties anode 6 and gets it; 13 is not its end and needs an anode more.
    assert_eq!(disk.resize(b"a", 3 * 512), 28);
    assert_eq!(disk.resize(b"a", 2 * 512), 0);
    assert_eq!((disk.anode(7), disk.anode(6), disk.anode(1)), ((1, 12, 6), (1, 10, 0), (0, 65_535, 8)));
    // 10 given back empties 6 again; the last upper anode is empty and is filled.
    assert_eq!(disk.resize(b"a", 512), 0);
    assert_eq!((disk.anode(7), disk.anode(6), disk.anode(3_443)), ((1, 12, 0), (0, 0, 0), (1, 10, 2)));
}

fn no_block_comes_before_no_anode<L: Library>() {
    let mut disk = Disk::<L>::format(7, 4, 1);
    assert_eq!(disk.make(ROOT, FILE, b"a"), 0);
    assert_eq!(disk.make(ROOT, FILE, b"b"), 0);
    assert_eq!(disk.resize(b"a", 512), 0);
    disk.use_up_anodes(&[]);
    // Block 6 is free, and is the end of a's last anode.
    assert_eq!(disk.resize(b"a", 3 * 512), 27);
    assert_eq!(disk.resize(b"b", 1), 0);
    assert_eq!(disk.resize(b"a", 513), 27);
    // Taking block 6 emptied and freed anode 6.
    assert_eq!(disk.make(ROOT, DIRECTORY, b"d"), 27);
    assert_eq!(disk.make(ROOT, FILE, b"c"), 0);
    assert_eq!(disk.anode(6), (0, 65_535, 0));
    assert_eq!(disk.make(ROOT, DIRECTORY, b"d"), 28);
}

fn make_tries_the_head_first<L: Library>() {
    let mut disk = Disk::<L>::format(5, 4, 1);
    disk.use_up_anodes(&[]);
    assert_eq!(disk.make(ROOT, DIRECTORY, b"d"), 28, "no anode and no block");
    let mut disk = Disk::<L>::format(5, 4, 1);
    disk.use_up_anodes(&[70]);
    assert_eq!(disk.make(ROOT, DIRECTORY, b"d"), 27, "no block");
    assert_eq!(disk.make(ROOT, FILE, b"f"), 0);
    assert_eq!(disk.anode(70), (0, 65_535, 0));
}

fn make_with_a_full_parent<L: Library>() {
    let full = |disk: &mut Disk<L>| {
        (0..27u8).for_each(|place| assert_eq!(disk.make(ROOT, FILE, &[b'A' + place]), 0));
    };
    // No block for the parent.
    let mut disk = Disk::<L>::format(5, 4, 1);
    full(&mut disk);
    assert_eq!(disk.make(ROOT, FILE, b"1"), 27);
    // One block: the new directory has it, the parent none.
    let mut disk = Disk::<L>::format(6, 5, 1);
    full(&mut disk);
    assert_eq!(disk.make(ROOT, DIRECTORY, b"1"), 27);
    assert_eq!(disk.make(ROOT, FILE, b"1"), 0);
    // Blocks enough, but one anode only, and no slot for more: the parent's block has none.
    let mut disk = Disk::<L>::format(20, 9, 1);
    full(&mut disk);
    disk.fill_slots();
    disk.use_up_anodes(&[50]);
    assert_eq!(disk.make(ROOT, FILE, b"1"), 28);
    assert_eq!(disk.make(ROOT, DIRECTORY, b"1"), 28);
    // The parent's block empties an anode, which it gets; the head was chosen before.
    let mut disk = Disk::<L>::format(20, 9, 1);
    full(&mut disk);
    disk.set(&[(2, (0, 65_535, 40)), (40, (1, 5, 41)), (41, (4, 6, 0))]);
    disk.use_up_anodes(&[50]);
    assert_eq!(disk.make(ROOT, FILE, b"1"), 0);
    assert_eq!((disk.anode(50), disk.anode(40), disk.anode(5)), ((0, 65_535, 0), (1, 5, 0), (1, 4, 40)));
    assert_eq!(disk.anode(2), (0, 65_535, 41));
}

/// By 01's rule for one block the removal was refused with 28, since its head counted as in use until the end. By 02, No. 3
/// the head itself moves.
fn remove_needs_no_anode_though_its_head_is_in_use<L: Library>() {
    let mut disk = Disk::<L>::format(20, 9, 1);
    assert_eq!(disk.make(ROOT, FILE, b"a"), 0);
    assert_eq!(disk.make(ROOT, FILE, b"b"), 0);
    assert_eq!(disk.resize(b"a", 512), 0);
    assert_eq!(disk.resize(b"b", 512), 0);
    // Upper: 12 to 17 in 6, 18 and 19 in 9, which is the last. 10 is beside neither.
    disk.set(&[(6, (6, 12, 9)), (9, (2, 18, 2))]);
    disk.fill_slots();
    disk.use_up_anodes_at_the_end();
    assert_eq!(disk.resize(b"a", 0), 28);
    assert_eq!(disk.resize(b"a", 1), 0);
    assert_eq!(disk.remove(ROOT, b"a"), 0);
    assert_eq!((disk.anode(9), disk.anode(7)), ((2, 18, 7), (1, 10, 2)));
}

both!(
    taking_and_giving_back,
    joining_after_the_end,
    empty_anodes_keep_their_places,
    shrinking_from_before_an_empty_tail,
    the_anode_just_emptied_counts_as_free,
    no_block_comes_before_no_anode,
    make_tries_the_head_first,
    make_with_a_full_parent,
    remove_needs_no_anode_though_its_head_is_in_use,
);
