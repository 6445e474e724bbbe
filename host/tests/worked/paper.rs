//! The worked cases of the paper.

use ovenknit_host::calls::{Call, Library, Stamp, DIRECTORY, FILE, ROOT};
use ovenknit_host::model::layout::{self, Anode, BLOCK};

use crate::disk::{format_call, Disk};

fn format_1760_blocks<L: Library>() {
    let mut disk = Disk::<L>::format(1_760, 63, 2);
    assert_eq!(disk.anode(0), (0, 65_535, 0));
    assert_eq!(disk.anode(1), (0, 65_535, 6));
    assert_eq!(disk.anode(2), (58, 6, 0));
    assert_eq!(disk.anode(3), (0, 0, 0));
    assert_eq!(disk.anode(4), (0, 0, 0));
    assert_eq!(disk.anode(5), (1, 5, 0));
    assert_eq!(disk.anode(6), (1_696, 64, 2));
    assert_eq!(disk.summary(), [1_760, 1_754, 0, 1]);
    assert_eq!(disk.blocks[..7], [65_535, 65_535, 65_535, 65_534, 65_534, 5, 1]);
    assert!(disk.blocks[6..].iter().all(|&owner| owner == 1));
    assert_eq!(disk.anodes[..8], [0, 1, 1, 0, 0, 5, 1, 0]);
}

fn format_writes_these_bytes_and_no_others<L: Library>() {
    let disk = Disk::<L>::format(20, 9, 1);
    let mut expected = vec![0; 20 * BLOCK];
    let mut put = |block: usize, at: usize, bytes: &[u8]| {
        expected[block * BLOCK + at..block * BLOCK + at + bytes.len()].copy_from_slice(bytes);
    };
    put(0, 0, b"PFS\0");
    put(2, 0, b"PFS\0");
    put(2, 12, &[0, 1, 0, 2, 0, 3, 0, 4, 4]);
    put(2, 21, b"disk");
    put(2, 54, &[0, 9]);
    put(2, 96, &[0, 3]);
    put(3, 0, b"AB");
    put(3, 16, &[0, 0, 255, 255, 0, 0]);
    put(3, 22, &[0, 0, 255, 255, 0, 6]);
    put(3, 28, &[0, 5, 0, 5, 0, 0]);
    put(3, 46, &[0, 1, 0, 4, 0, 0]);
    put(3, 52, &[0, 10, 0, 10, 0, 2]);
    put(4, 0, b"DB");
    put(4, 12, &[0, 5]);
    assert_eq!(disk.image, expected);
}

fn format_5_blocks<L: Library>() {
    let mut disk = Disk::<L>::format(5, 4, 1);
    assert_eq!(disk.summary(), [5, 0, 0, 1]);
    assert_eq!(disk.anode(1), (0, 65_535, 2));
    assert_eq!(disk.anode(2), (0, 65_535, 0));
    assert_eq!(disk.make(ROOT, DIRECTORY, b"d"), 27);
    assert_eq!(disk.make(ROOT, FILE, b"f"), 0);
    assert_eq!(disk.resize(b"f", 1), 27);
    assert_eq!(disk.resize(b"f", u64::MAX), 27);
}

fn format_refusals<L: Library>() {
    let mut disk = Disk::<L>::new(vec![0x11; 20 * BLOCK]);
    for (last, anode_blocks, name) in [
        (10, 0, &b"n"[..]),
        (19, 43, b"n"),
        (9, 65_535, b"n"),
        (3, 1, b"n"),
        (20, 1, b"n"),
        (65_535, 1, b"n"),
        (10, 1, b""),
        (10, 1, &[b'n'; 32]),
    ] {
        let call = format_call(last, anode_blocks, name);
        assert_eq!(disk.compare(&call).answer, 20, "{call:?}");
        assert!(disk.image.iter().all(|&byte| byte == 0x11));
    }
    for length in [0, 1, 511, 4 * BLOCK, 5 * BLOCK + 1, 65_536 * BLOCK] {
        let mut disk = Disk::<L>::new(vec![0x22; length]);
        assert_eq!(disk.compare(&format_call(10, 0, b"")).answer, 1);
        assert!(disk.image.iter().all(|&byte| byte == 0x22));
    }
    // The widest: 42 anode blocks, a name of 31 bytes.
    let mut disk = Disk::<L>::new(vec![0x33; 60 * BLOCK]);
    assert_eq!(disk.run(format_call(45, 42, &[0xFF; 31])).answer, 0);
}

fn twenty_seven_entries_share_a_block<L: Library>() {
    let mut disk = Disk::<L>::format(40, 20, 1);
    for place in 0..28u8 {
        assert_eq!(disk.anode(5), (1, 4, 0), "all entries so far are in one block");
        assert_eq!(disk.make(ROOT, FILE, &[b'A' + place]), 0);
    }
    // The head of the 28th is 34; the parent's block 5, though it follows block 4, has an anode of its own.
    assert_eq!(disk.anode(5), (1, 4, 35));
    assert_eq!(disk.anode(34), (0, 65_535, 0));
    assert_eq!(disk.anode(35), (1, 5, 0));
    let block = disk.block(5);
    assert_eq!(block[..16], *b"DB\0\0\0\0\0\0\0\0\0\0\0\x05\0\0");
    assert_eq!(block[16..34], [18, 253, 0, 34, 0, 0, 0, 0, 0, 7, 0, 8, 0, 9, 10, 1, b'A' + 27, 0]);
    assert!(block[34..].iter().all(|&byte| byte == 0));
    assert_eq!(disk.list(ROOT, 26).1[8..], [1, 4 * 512 + 16 + 26 * 18 + 17 + 1, 0]);
    assert_eq!(disk.list(ROOT, 27).1[7], 5 * 512 + 16 + 16);
    assert_eq!(disk.list(ROOT, 28), (22, [0; 11]));
    assert_eq!(disk.summary(), [40, 34, 28, 1]);
}

fn entry_lengths_w1_to_w3<L: Library>() {
    for (name, comment, length) in [(1, 0, 18), (4, 0, 22), (107, 79, 204)] {
        let mut disk = Disk::<L>::format(20, 9, 1);
        let (name, comment) = (vec![b'n'; name], vec![b'c'; comment]);
        let (stamp, protection) = (Stamp::default(), 0);
        let call = Call::Make { directory: ROOT, kind: FILE, name, comment, stamp, protection };
        assert_eq!(disk.run(call).answer, 0);
        assert_eq!((disk.block(4)[16], disk.block(4)[16 + length]), (length as u8, 0));
    }
}

fn ends_are_whole_numbers_w4_and_w5<L: Library>() {
    let mut disk = Disk::<L>::new(vec![0; 65_535 * BLOCK]);
    assert_eq!(disk.compare(&format_call(100, 1, b"n")).answer, 0);
    // 65,530 and 10 end at 65,540; with 5 the end is the disk's.
    for (count, end, answer) in [(10, 65_540, 7), (5, 65_535, 0)] {
        disk.set(&[(6, (65_530 - 101, 101, 7)), (7, (count, 65_530, 2))]);
        assert_eq!(disk.table()[7].end(), end);
        assert_eq!(disk.compare(&Call::Check).answer, answer);
    }
}

fn sizes_w6_to_w8<L: Library>() {
    for (size, held) in [(0, 0), (512, 1), (513, 2)] {
        let mut disk = Disk::<L>::format(20, 9, 1);
        assert_eq!(disk.make(ROOT, FILE, b"f"), 0);
        assert_eq!(disk.resize(b"f", size), 0);
        assert_eq!(disk.summary()[1], 15 - held);
    }
}

fn anode_places_w9_to_w11<L: Library>() {
    for (number, slot, byte) in [(81u16, 0, 502), (82, 1, 16), (3_443, 41, 16 + 81 * 6)] {
        let mut disk = Disk::<L>::format(60, 45, 42);
        // An empty anode between 1 and 6, written where it must be.
        disk.set(&[(1, (0, 65_535, number))]);
        disk.block_mut(3 + slot)[byte..byte + 6].copy_from_slice(&[0, 0, 255, 255, 0, 6]);
        assert_eq!(disk.check(), 0);
        assert_eq!((disk.anodes[usize::from(number)], disk.table()[number]), (1, Anode::empty(6)));
    }
}

fn two_directories_naming_each_other_off_the_root<L: Library>() {
    let mut disk = Disk::<L>::format(40, 20, 1);
    assert_eq!(disk.make(ROOT, FILE, b"f"), 0);
    assert_eq!(disk.make(ROOT, DIRECTORY, b"one"), 0);
    assert_eq!(disk.make(8, DIRECTORY, b"two"), 0);
    assert_eq!(disk.anode(8), (1, 5, 0));
    assert_eq!(disk.anode(9), (1, 6, 0));
    // "one" goes from the root into "two".
    let entry = disk.block(4)[34..34 + 20].to_vec();
    disk.block_mut(4)[34..34 + 20].fill(0);
    disk.block_mut(6)[16..16 + 20].copy_from_slice(&entry);
    layout::put_word(disk.block_mut(5), 14, 9);
    assert_eq!(disk.check(), 16);
}

both!(
    format_1760_blocks,
    format_writes_these_bytes_and_no_others,
    format_5_blocks,
    format_refusals,
    twenty_seven_entries_share_a_block,
    entry_lengths_w1_to_w3,
    ends_are_whole_numbers_w4_and_w5,
    sizes_w6_to_w8,
    anode_places_w9_to_w11,
    two_directories_naming_each_other_off_the_root,
);
