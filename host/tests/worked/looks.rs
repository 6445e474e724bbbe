//! Find and label, by hand: names in the second block of a directory, and names that no entry can have; the fields of the
//! root block.

use ovenknit_host::calls::{Call, Library, Outcome, DIRECTORY, FILE, ROOT};

use crate::disk::Disk;

fn find<L: Library>(disk: &mut Disk<L>, directory: u16, name: &[u8]) -> (u32, [u32; 11]) {
    let Outcome { answer, output } = disk.run(Call::Find { directory, name: name.to_vec() });
    (answer, output.entry)
}

fn what_is_found_is_what_is_listed<L: Library>() {
    let mut disk = Disk::<L>::format(60, 30, 2);
    assert_eq!(disk.make(ROOT, DIRECTORY, b"d"), 0);
    // 24 entries of 20 bytes fill the first block, so the others are in the second.
    let names: Vec<[u8; 2]> = (0..40u8).map(|place| [b'a' + place / 26, b'a' + place % 26]).collect();
    for name in &names {
        assert_eq!(disk.make(7, FILE, name), 0);
    }
    for (place, name) in names.iter().enumerate() {
        assert_eq!(find(&mut disk, 7, name), disk.list(7, place as u64));
    }
    assert_eq!(find(&mut disk, ROOT, b"d"), disk.list(ROOT, 0));
}

fn what_is_not_there_is_not_found<L: Library>() {
    let mut disk = Disk::<L>::format(20, 9, 1);
    assert_eq!((disk.make(ROOT, FILE, b"f"), disk.make(ROOT, DIRECTORY, b"d")), (0, 0));
    for name in [&b"g"[..], b"", b"ff", b"f\0", b"a:b", &[b'x'; 300]] {
        assert_eq!(find(&mut disk, ROOT, name), (22, [0; 11]), "{name:?}");
    }
    // 7 is the file, 8 the directory, and no other number is one.
    assert_eq!(find(&mut disk, 8, b"f"), (22, [0; 11]));
    for directory in [0, 1, 2, 6, 7, 9, 3_443, 65_535] {
        assert_eq!(find(&mut disk, directory, b"f"), (21, [0; 11]), "{directory}");
    }
}

fn the_label_is_the_root_blocks<L: Library>() {
    let mut disk = Disk::<L>::format(20, 9, 1);
    let label = |disk: &mut Disk<L>| {
        let Outcome { answer, output } = disk.compare(&Call::Label);
        (answer, output.label)
    };
    assert_eq!(label(&mut disk), (0, [9, 1, 2, 3, 4, 1_045, 4]));
    assert_eq!(&disk.image[1_045..1_049], b"disk");
    // Any stamp and any bits are taken as they are, and a name of 31 bytes is the longest.
    disk.image[1_024 + 12..1_024 + 20].fill(0xFF);
    disk.image[1_024 + 20] = 31;
    assert_eq!(label(&mut disk), (0, [9, 65_535, 65_535, 65_535, 65_535, 1_045, 31]));
    disk.image[1_024 + 20] = 32;
    assert_eq!(label(&mut disk), (4, [0; 7]));
}

both!(what_is_found_is_what_is_listed, what_is_not_there_is_not_found, the_label_is_the_root_blocks,);
