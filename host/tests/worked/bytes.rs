//! What the calls do to bytes and entries, by hand.

use ovenknit_host::calls::{Library, BLOCK, DIRECTORY, FILE, ROOT};

use crate::disk::Disk;

fn growth_zeroes_the_tail_and_new_blocks<L: Library>() {
    let mut disk = Disk::<L>::format(20, 9, 1);
    for block in 10..20 {
        disk.block_mut(block).fill(0xEE);
    }
    assert_eq!(disk.make(ROOT, FILE, b"a"), 0);
    assert_eq!(disk.resize(b"a", 600), 0);
    assert_eq!(disk.read(b"a", 0, 600), (0, vec![0; 600]));
    assert_eq!(disk.write(b"a", 0, &[1; 600]), 0);
    // Shrinking changes no data byte.
    assert_eq!(disk.resize(b"a", 100), 0);
    assert!(disk.block(10).iter().chain(&disk.block(11)[..88]).all(|&byte| byte == 1));
    // Growing within the block zeroes the tail to the block's end.
    assert_eq!(disk.resize(b"a", 101), 0);
    assert!(disk.block(10)[..100].iter().all(|&byte| byte == 1));
    assert!(disk.block(10)[100..].iter().all(|&byte| byte == 0));
    assert_eq!(disk.block(11)[0], 1);
    // The same size changes nothing.
    disk.block_mut(10).fill(3);
    let before = disk.image.clone();
    assert_eq!(disk.resize(b"a", 101), 0);
    assert_eq!(disk.image, before);
    // From a whole block on, only the new block is zeroed.
    assert_eq!(disk.resize(b"a", 512), 0);
    assert_eq!(disk.write(b"a", 500, &[4; 12]), 0);
    assert_eq!(disk.resize(b"a", 513), 0);
    assert_eq!(disk.block(10)[500..], [4; 12]);
    assert!(disk.block(11).iter().all(|&byte| byte == 0));
    assert_eq!(disk.block(12)[0], 0xEE);
}

fn read_and_write_keep_within_the_size<L: Library>() {
    let mut disk = Disk::<L>::format(20, 9, 1);
    assert_eq!(disk.make(ROOT, FILE, b"a"), 0);
    assert_eq!(disk.resize(b"a", 700), 0);
    assert_eq!(disk.write(b"a", 510, &[1, 2, 3, 4]), 0);
    assert_eq!(disk.read(b"a", 509, 6), (0, vec![0, 1, 2, 3, 4, 0]));
    assert_eq!(disk.read(b"a", 700, 0).0, 0);
    assert_eq!(disk.read(b"a", 701, 0).0, 26);
    assert_eq!(disk.read(b"a", u64::MAX, 2), (26, vec![0xA5; 2]));
    assert_eq!(disk.write(b"a", 699, &[1]), 0);
    assert_eq!(disk.write(b"a", 699, &[1, 1]), 26);
    assert_eq!(disk.read(b"b", u64::MAX, 2).0, 22);
}

fn refusals_come_in_table_order<L: Library>() {
    let mut disk = Disk::<L>::format(20, 9, 1);
    assert_eq!(disk.make(ROOT, DIRECTORY, b"d"), 0);
    assert_eq!(disk.make(7, FILE, b"f"), 0);
    assert_eq!(disk.make(99, 1, b"d"), 20);
    assert_eq!(disk.make(99, FILE, b"a/b"), 20);
    assert_eq!(disk.make(99, FILE, b"d"), 21);
    assert_eq!(disk.make(8, FILE, b"d"), 21, "a file's head is no directory");
    assert_eq!(disk.make(ROOT, FILE, b"d"), 23);
    assert_eq!(disk.make(ROOT, FILE, b"D"), 23, "names match after folding");
    assert_eq!(disk.read(b"d", 9, 9).0, 24);
    assert_eq!(disk.resize(b"d", u64::MAX), 24);
    assert_eq!(disk.remove(ROOT, b"d"), 25);
    assert_eq!(disk.remove(7, b"g"), 22);
    assert_eq!(disk.remove(0, b"g"), 21);
    assert_eq!(disk.list(7, 1), (22, [0; 11]));
    assert_eq!(disk.list(6, 0), (21, [0; 11]));
    assert_eq!(disk.remove(7, b"f"), 0);
    assert_eq!(disk.remove(ROOT, b"d"), 0);
}

fn make_touches_the_pad_and_one_byte_more<L: Library>() {
    let mut disk = Disk::<L>::format(20, 9, 1);
    disk.block_mut(4)[17..].fill(0xEE);
    assert_eq!(disk.make(ROOT, FILE, b"ab"), 0);
    // 17 + 2 is odd: byte 19 of the entry is its pad, byte 20 the end mark.
    let block = disk.block(4);
    assert_eq!(block[16 + 16..16 + 22], [b'a', b'b', 0, 0, 0, 0xEE]);
    assert!(block[16 + 21..].iter().all(|&byte| byte == 0xEE));
    assert_eq!(block[16], 20);
}

fn remove_closes_the_gap<L: Library>() {
    let mut disk = Disk::<L>::format(20, 9, 1);
    for name in [&b"aa"[..], b"b", b"cccc"] {
        assert_eq!(disk.make(ROOT, FILE, name), 0);
    }
    // The entries have 20, 18 and 22 bytes and end at 76.
    disk.block_mut(4)[77..].fill(0xEE);
    let before = disk.block(4).to_vec();
    assert_eq!(disk.remove(ROOT, b"b"), 0);
    let after = disk.block(4);
    assert_eq!(after[..36], before[..36]);
    assert_eq!(after[36..58], before[54..76]);
    assert!(after[58..77].iter().all(|&byte| byte == 0));
    assert!(after[77..].iter().all(|&byte| byte == 0xEE));
}

fn an_emptied_directory_block_stays_and_is_used_again<L: Library>() {
    let mut disk = Disk::<L>::format(40, 20, 1);
    for place in 0..28u8 {
        assert_eq!(disk.make(ROOT, FILE, &[b'A' + place]), 0);
    }
    assert_eq!(disk.remove(ROOT, &[b'A' + 27]), 0);
    assert_eq!((disk.anode(5), disk.anode(35)), ((1, 4, 35), (1, 5, 0)));
    assert!(disk.block(5)[16..].iter().all(|&byte| byte == 0));
    // There is room in the first block again, so that is where the next one goes.
    assert_eq!(disk.remove(ROOT, b"A"), 0);
    assert_eq!(disk.make(ROOT, FILE, b"1"), 0);
    assert_eq!(disk.list(ROOT, 26).1[7], 4 * 512 + 16 + 26 * 18 + 16);
    assert_eq!(disk.make(ROOT, FILE, b"2"), 0);
    assert_eq!(disk.list(ROOT, 27).1[7], 5 * 512 + 32);
}

fn new_blocks_of_a_directory_name_its_parent<L: Library>() {
    let mut disk = Disk::<L>::format(60, 30, 1);
    assert_eq!(disk.make(ROOT, DIRECTORY, b"one"), 0);
    assert_eq!(disk.make(7, DIRECTORY, b"two"), 0);
    for place in 0..28u8 {
        assert_eq!(disk.make(8, FILE, &[b'A' + place]), 0);
    }
    // "two" (8) is in "one" (7): blocks 6 and 7 are headed alike.
    assert_eq!(disk.anode(8), (1, 6, 37));
    assert_eq!(disk.anode(37), (1, 7, 0));
    for block in [6, 7] {
        assert_eq!(disk.block(block)[..16], *b"DB\0\0\0\0\0\0\0\0\0\0\0\x08\0\x07");
    }
}

fn blocks_0_and_1_are_never_read<L: Library>() {
    let mut disk = Disk::<L>::format(20, 9, 1);
    disk.image[..2 * BLOCK].fill(0x5A);
    assert_eq!(disk.check(), 0);
}

both!(
    growth_zeroes_the_tail_and_new_blocks,
    read_and_write_keep_within_the_size,
    refusals_come_in_table_order,
    make_touches_the_pad_and_one_byte_more,
    remove_closes_the_gap,
    an_emptied_directory_block_stays_and_is_used_again,
    new_blocks_of_a_directory_name_its_parent,
    blocks_0_and_1_are_never_read,
);
