//! Cases at the limits, by hand: several empty directory blocks, a file across last reserved, sizes of 2^32 and
//! above, and names and places that no disk has.

use ovenknit_host::calls::{Call, Library, DIRECTORY, FILE, ROOT};

use crate::disk::Disk;

fn a_directory_of_several_empty_blocks_is_removed<L: Library>() {
    let mut disk = Disk::<L>::format(60, 30, 2);
    let free = disk.summary()[1];
    assert_eq!(disk.make(ROOT, DIRECTORY, b"d"), 0);
    let names: Vec<[u8; 2]> = (0..70u8).map(|place| [b'a' + place / 26, b'a' + place % 26]).collect();
    for name in &names {
        assert_eq!(disk.make(7, FILE, name), 0);
    }
    // 24 entries of 20 bytes in a block: three blocks, each with an anode of its own.
    assert_eq!(disk.table().chain(7).map(|(_, anode)| anode.count).collect::<Vec<u16>>(), [1, 1, 1]);
    assert_eq!(disk.remove(ROOT, b"d"), 25);
    for name in &names {
        assert_eq!(disk.remove(7, name), 0);
    }
    assert_eq!(disk.table().chain_blocks(7).count(), 3, "blocks left empty stay");
    assert_eq!(disk.summary()[1], free - 3);
    assert_eq!(disk.list(7, 0), (22, [0; 11]));
    let chain: Vec<u16> = disk.table().chain(7).map(|(number, _)| number).collect();
    assert_eq!(disk.remove(ROOT, b"d"), 0);
    assert_eq!(chain.len(), 3);
    assert!(chain.iter().all(|&number| disk.anode(number) == (0, 0, 0)));
    assert_eq!(disk.summary(), [60, free, 0, 1]);
    assert_eq!(disk.list(7, 0).0, 21);
}

fn a_file_crosses_last_reserved<L: Library>() {
    // 5 to 9 are free below, 10 to 19 above: the file takes all of them, the upper ones first.
    let mut disk = Disk::<L>::format(20, 9, 1);
    assert_eq!(disk.make(ROOT, FILE, b"f"), 0);
    assert_eq!(disk.resize(b"f", 15 * 512), 0);
    assert_eq!((disk.anode(7), disk.anode(6)), ((10, 10, 6), (5, 5, 0)));
    let data: Vec<u8> = (0..15 * 512).map(|place| (place % 251) as u8).collect();
    assert_eq!(disk.write(b"f", 0, &data), 0);
    assert_eq!(disk.read(b"f", 5_100, 100), (0, data[5_100..5_200].to_vec()));
    assert_eq!((disk.block(10), disk.block(5)), (&data[..512], &data[5_120..5_632]));
    // The same bytes in one extent from 5 to 19, of which last reserved is in the middle.
    disk.set(&[(7, (15, 5, 0)), (6, (0, 0, 0))]);
    assert_eq!(disk.read(b"f", 0, 512).1, data[5_120..5_632]);
    // Given back as two runs: 10 to 19 go above, where nothing stands, 8 and 9 fill anode 2.
    assert_eq!(disk.resize(b"f", 3 * 512), 0);
    assert_eq!((disk.anode(7), disk.anode(6), disk.anode(2)), ((3, 5, 0), (10, 10, 2), (2, 8, 0)));
    assert_eq!(disk.resize(b"f", 4 * 512), 0);
    assert_eq!((disk.anode(7), disk.anode(8)), ((3, 5, 8), (1, 10, 0)));
}

fn sizes_of_two_to_the_32_and_above<L: Library>() {
    let sizes = [0xFFFF_FFFF, 1 << 32, (1 << 32) + 1, (1 << 32) + 512, 1 << 63, u64::MAX - 511, u64::MAX];
    let mut disk = Disk::<L>::format(20, 9, 1);
    assert_eq!(disk.make(ROOT, FILE, b"f"), 0);
    assert_eq!(disk.resize(b"f", 700), 0);
    for size in sizes {
        assert_eq!(disk.resize(b"f", size), 27, "{size}");
        assert_eq!(disk.read(b"f", size, 0).0, 26);
        assert_eq!(disk.write(b"f", size, &[1]), 26);
        assert_eq!(disk.list(ROOT, size).0, 22);
    }
    // With no anode left, and no slot for more, it is 27 if every free block can be joined, and 28 once one needs an anode.
    disk.fill_slots();
    disk.set(&[(6, (1, 12, 8)), (8, (7, 13, 2))]);
    disk.use_up_anodes(&[]);
    assert_eq!(disk.make(ROOT, FILE, b"g"), 28);
    for size in sizes {
        assert_eq!(disk.resize(b"f", size), 27, "{size}: 12 is the end of the file, and 13 to 19 follow");
    }
    disk.set(&[(6, (1, 19, 8)), (8, (7, 12, 9))]);
    for size in sizes {
        assert_eq!(disk.resize(b"f", size), 28, "{size}: 19 gets the anode just emptied, and 12 none");
    }
}

fn names_and_places_that_no_disk_has<L: Library>() {
    let mut disk = Disk::<L>::format(20, 9, 1);
    assert_eq!(disk.make(ROOT, FILE, b"f"), 0);
    for name in [&b""[..], b"a/b", b"a:b", b"a\0b", &[b'n'; 108], &[b'n'; 300]] {
        assert_eq!(disk.make(ROOT, FILE, name), 20);
        assert_eq!(disk.make(ROOT, DIRECTORY, name), 20);
        assert_eq!(disk.read(name, 0, 0).0, 22);
        assert_eq!(disk.resize(name, 1), 22);
        assert_eq!(disk.remove(ROOT, name), 22);
    }
    for directory in [0, 1, 2, 3, 4, 6, 7, 81, 82, 3_443, 3_444, 65_534, 65_535] {
        assert_eq!(disk.list(directory, 0), (21, [0; 11]));
        assert_eq!(disk.remove(directory, b"f"), 21);
    }
}

fn tables_too_short<L: Library>() {
    let mut disk = Disk::<L>::format(20, 9, 1);
    assert_eq!(disk.make(ROOT, FILE, b"f"), 0);
    for (blocks, anodes) in [(19, 3_444), (20, 3_443), (0, 3_444), (20, 0), (0, 0)] {
        (disk.blocks, disk.anodes) = (vec![9; blocks], vec![9; anodes]);
        for call in [
            Call::Check,
            Call::Summary,
            Call::List { directory: ROOT, place: 0 },
            Call::Resize { directory: ROOT, name: b"f".to_vec(), size: 9 },
            Call::Remove { directory: ROOT, name: b"f".to_vec() },
        ] {
            assert_eq!(disk.compare(&call).answer, 2, "{call:?}");
        }
        assert!(disk.blocks.iter().chain(&disk.anodes).all(|&entry| entry == 9));
    }
}

both!(
    a_directory_of_several_empty_blocks_is_removed,
    a_file_crosses_last_reserved,
    sizes_of_two_to_the_32_and_above,
    names_and_places_that_no_disk_has,
    tables_too_short,
);
