//! Half-cleared anodes (02, No. 2), by hand. Free means that all three fields are 0; a block field of 0 with anything
//! else set is 7. On 20 blocks with L 9 and one anode block, 1 = (0, 65535, 6), 2 = (5, 5, 0), 5 = (1, 4, 0) and
//! 6 = (10, 10, 2) are in use; 3, 4 and 7 to 81 are free, 82 and above missing.

use ovenknit_host::calls::{Call, Library, Stamp, FILE, ROOT};
use ovenknit_host::model::layout::{put_word, ROOT_BLOCK, ROOT_SLOTS};

use crate::disk::Disk;

/// Count, block and next of an anode.
type Fields = (u16, u16, u16);

/// Count alone, next alone, and both.
const HALF_CLEARED: [Fields; 3] = [(3, 0, 0), (0, 0, 17), (3, 0, 17)];

const FREE: Fields = (0, 0, 0);

/// What the check answers for the formatted disk with these anodes.
fn answer<L: Library>(anodes: &[(u16, Fields)]) -> u32 {
    let mut disk = Disk::<L>::format(20, 9, 1);
    disk.set(anodes);
    disk.check()
}

fn every_half_cleared_anode_is_refused<L: Library>() {
    for fields in HALF_CLEARED {
        for number in 0..82 {
            // The blocks of 0 and 1 must be 65535, so that 6 comes first there.
            let expected = if number < 2 { 6 } else { 7 };
            assert_eq!(answer::<L>(&[(number, fields)]), expected, "{number} = {fields:?}");
        }
    }
    // The least and the most that can be left, and a next that is there, missing or itself.
    for fields in [(1, 0, 0), (65_535, 0, 0), (0, 0, 1), (0, 0, 6), (0, 0, 20), (0, 0, 82), (0, 0, 65_535)] {
        assert_eq!(answer::<L>(&[(20, fields)]), 7, "20 = {fields:?}");
    }
    assert_eq!(answer::<L>(&[]), 0);
}

fn free_in_6_means_all_three_fields<L: Library>() {
    for (two, five, expected) in [
        ((5, 0, 0), (1, 4, 0), 7),
        ((0, 0, 6), (1, 4, 0), 7),
        (FREE, (1, 4, 0), 6),
        ((5, 5, 0), (1, 0, 0), 7),
        ((5, 5, 0), (0, 0, 6), 7),
        ((5, 5, 0), FREE, 6),
        ((5, 0, 0), (1, 0, 0), 7),
        // The other one is free, and 6 comes first.
        ((5, 0, 0), FREE, 6),
        (FREE, (1, 0, 0), 6),
        (FREE, FREE, 6),
    ] {
        assert_eq!(answer::<L>(&[(2, two), (5, five)]), expected, "2 = {two:?}, 5 = {five:?}");
    }
    // So it does before a half-cleared anode of any number.
    for fields in HALF_CLEARED {
        for number in [3, 4, 6, 7, 81] {
            for first in [(0, FREE), (0, (0, 65_535, 1)), (1, (1, 65_535, 6)), (2, FREE), (5, FREE)] {
                assert_eq!(answer::<L>(&[(number, fields), first]), 6, "{number} = {fields:?}, {first:?}");
            }
        }
    }
}

fn seven_comes_between_6_and_8<L: Library>() {
    for (fault, number) in [
        ((6, (10, 11, 2)), 7),
        ((6, (10, 10, 6)), 8),
        ((1, (0, 65_535, 0)), 9),
        ((5, (2, 4, 0)), 10),
        ((6, (9, 10, 2)), 11),
        ((5, (1, 4, 21)), 7),
        ((7, (0, 65_535, 0)), 16),
    ] {
        assert_eq!(answer::<L>(&[fault]), number, "{fault:?}");
        for fields in HALF_CLEARED {
            assert_eq!(answer::<L>(&[fault, (20, fields)]), 7, "{fault:?}, 20 = {fields:?}");
            // A next that leads to it changes nothing.
            assert_eq!(answer::<L>(&[fault, (20, fields), (2, (5, 5, 20))]), 7, "{fault:?}, 20 = {fields:?}");
        }
    }
    // The walk's numbers come later, those of the anode blocks first.
    let mut disk = Disk::<L>::format(20, 9, 1);
    disk.block_mut(4)[0] = b'X';
    assert_eq!(disk.check(), 12);
    disk.set(&[(20, (3, 0, 0))]);
    assert_eq!(disk.check(), 7);
    disk.block_mut(3)[0] = b'X';
    assert_eq!(disk.check(), 5);
}

fn missing_anodes_are_not_read<L: Library>() {
    // Blocks 3 and 4 hold the anodes, 5 the root directory, 6 to 9 are free below.
    let mut disk = Disk::<L>::format(20, 9, 2);
    let image = disk.image.clone();
    for fields in HALF_CLEARED {
        for number in [82, 100, 163] {
            disk.image.clone_from(&image);
            disk.set(&[(number, fields)]);
            assert_eq!(disk.check(), 7, "{number} = {fields:?}");
            // Its slot gets empty, and its block is one to be freed.
            disk.set(&[(3, (1, 4, 0))]);
            put_word(disk.block_mut(ROOT_BLOCK), ROOT_SLOTS + 2, 0);
            assert_eq!(disk.check(), 0, "{number} is missing");
            let block = disk.block(4).to_vec();
            assert_eq!(disk.make(ROOT, FILE, b"f"), 0);
            assert_eq!(disk.resize(b"f", 10 * 512), 0);
            assert_eq!(disk.block(4), block);
        }
    }
}

fn every_call_refuses_it_and_changes_nothing<L: Library>() {
    let mut disk = Disk::<L>::format(20, 9, 1);
    assert_eq!(disk.make(ROOT, FILE, b"f"), 0);
    assert_eq!(disk.resize(b"f", 700), 0);
    let accepted = disk.image.clone();
    let (directory, name) = (ROOT, || b"f".to_vec());
    // 8 would be the next one to be taken.
    for (number, fields) in [(3, (3, 0, 17)), (8, (3, 0, 0)), (8, (0, 0, 7)), (81, (1, 0, 0))] {
        disk.image.clone_from(&accepted);
        disk.set(&[(number, fields)]);
        let damaged = disk.image.clone();
        let (new, comment, stamp) = (b"g".to_vec(), Vec::new(), Stamp::new(7, 8, 9));
        for call in [
            Call::Check,
            Call::Summary,
            Call::Read { directory, name: name(), offset: 0, length: 7 },
            Call::List { directory, place: 0 },
            Call::Make { directory, kind: FILE, name: new, comment, stamp, protection: 0 },
            Call::Resize { directory, name: name(), size: 1_200 },
            Call::Resize { directory, name: name(), size: 0 },
            Call::Write { directory, name: name(), offset: 0, data: vec![1] },
            Call::Remove { directory, name: name() },
        ] {
            disk.blocks.fill(9);
            disk.anodes.fill(9);
            assert_eq!(disk.compare(&call).answer, 7, "{call:?}");
            assert_eq!(disk.image, damaged, "{call:?}");
            assert!(disk.blocks.iter().chain(&disk.anodes).all(|&entry| entry == 0), "{call:?}");
        }
    }
    disk.image = accepted;
    assert_eq!(disk.remove(ROOT, b"f"), 0);
    assert_eq!(disk.anode(7), FREE);
}

both!(
    every_half_cleared_anode_is_refused,
    free_in_6_means_all_three_fields,
    seven_comes_between_6_and_8,
    missing_anodes_are_not_read,
    every_call_refuses_it_and_changes_nothing,
);
