//! Where a damaged disk is damaged.

use crate::folder::Folder;

/// 20 blocks, last reserved 9, one anode block: 3 anodes, 4 the root, 5 the directory d, 10 and 11 the file d/a b, and 12
/// the file f. Anodes: 5 the root, 7 d, 8 d/a b, 9 f; 6 the free blocks from 13 on and 2 those from 6 on.
fn disk(folder: &Folder) -> Vec<u8> {
    folder.write("two", &[1; 600]);
    folder.write("one", &[2; 100]);
    folder.done(&["format", "disk.adf", "--blocks", "20", "--reserved", "9", "--anode-blocks", "1"]);
    folder.done(&["mkdir", "disk.adf", "d"]);
    folder.done(&["put", "disk.adf", "two", "--as", "d/a b"]);
    folder.done(&["put", "disk.adf", "one", "--as", "f"]);
    folder.read("disk.adf")
}

/// The place of an anode's fields.
fn anode(number: usize) -> usize {
    3 * 512 + 16 + 6 * number
}

const ROOT: usize = 2 * 512;

#[test]
fn every_number_has_its_place() {
    let folder = Folder::new("where");
    let sound = disk(&folder);
    let check = |number: u32, changes: &[(usize, &[u8])], place: &str| {
        let mut image = sound.clone();
        for (at, bytes) in changes {
            image[*at..at + bytes.len()].copy_from_slice(bytes);
        }
        folder.write("damaged.adf", &image);
        let run = folder.run(&["check", "--where", "damaged.adf"]);
        let lines: Vec<&str> = run.out.lines().collect();
        assert!(run.status == 3 && run.errors.is_empty() && lines.len() == 3, "{}", run.out);
        assert!(lines[0].starts_with(&format!("{number}: ")), "{}", run.out);
        assert_eq!(lines[1], format!("  {place}"));
        assert!(lines[2].ends_with("tested and not proved; the number is proved."), "{}", lines[2]);
    };
    check(3, &[(ROOT, b"X")], "block 2: the first four bytes are [88, 70, 83, 0] and not [80, 70, 83, 0]");
    check(4, &[(ROOT + 52, &[0, 1])], "block 2: first reserved is 1 and not 0");
    check(4, &[(ROOT + 54, &[0, 20])], "block 2: last reserved is 20, and must be 2 to 19");
    check(4, &[(ROOT + 20, &[32])], "block 2: the disk's name has 32 bytes, and must have 1 to 31");
    check(5, &[(ROOT + 96, &[0, 0])], "block 2: slot 0 names no anode block");
    check(5, &[(ROOT + 98, &[0, 20])], "block 2: slot 1 names block 20, and must name one of 3 to 19");
    check(5, &[(ROOT + 100, &[0, 4])], "block 4, the anode block of slot 2, has not the mark AB");
    check(5, &[(3 * 512 + 10, &[0, 7])], "block 3, the anode block of slot 0, has the sequence number 7");
    check(6, &[(anode(0), &[0, 1])], "anode 0 is (1, 65535, 0), and must be (0, 65535, 0)");
    check(
        6,
        &[(anode(1), &[0, 1])],
        "anode 1 is (1, 65535, 6), and must have the count 0 and the block 65535",
    );
    check(6, &[(anode(5), &[0; 6])], "anode 5 is (0, 0, 0), and must be in use");
    check(
        7,
        &[(anode(20), &[0, 3, 0, 0])],
        "anode 20 is (3, 0, 0): its block is 0, and its count or next is not",
    );
    check(
        7,
        &[(anode(9), &[0, 9])],
        "anode 9 is (9, 12, 0): blocks 12 to 20, and the disk ends with block 19",
    );
    check(7, &[(anode(9) + 4, &[0, 30])], "anode 9 is (1, 12, 30): its next, anode 30, is not in use");
    check(8, &[(anode(9) + 4, &[0, 2])], "anode 2 is the next of anodes 6, 9");
    check(8, &[(anode(9) + 4, &[0, 5])], "anode 5 begins a chain of its own, and is the next of anode 9");
    check(8, &[(anode(9) + 4, &[0, 9])], "anode 9 is on a chain that never ends: 9");
    check(
        9,
        &[(anode(6) + 2, &[0, 9])],
        "anode 6 on the free list, before anode 2: blocks 9 to 15, and last reserved is 9",
    );
    check(9, &[(anode(6) + 4, &[0, 0])], "anode 2 is not on the free list, which begins with anode 1");
    check(10, &[(anode(9) + 2, &[0, 11])], "block 11 is owned by anode 8 and anode 9");
    check(10, &[(anode(9) + 2, &[0, 3])], "block 3 is owned by slot 0 as an anode block and anode 9");
    check(11, &[(anode(6) + 1, &[6])], "block 19 has no owner");
    check(12, &[(5 * 512, b"X")], "directory d: its block 5 has not the mark DB");
    check(
        12,
        &[(5 * 512 + 12, &[0, 9])],
        "directory d: its block 5 says that it belongs to anode 9 and not 7",
    );
    check(12, &[(5 * 512 + 14, &[0, 9])], "directory d: its block 5 has the parent 9 and not 5");
    check(12, &[(5 * 512 + 16, &[17])], "directory d: the entry at byte 16 of block 5 breaks the rules");
    check(12, &[(4 * 512 + 34, &[9])], "directory /: the entry at byte 34 of block 4 breaks the rules");
    check(
        12,
        &[(anode(7), &[0, 2]), (anode(2), &[0, 3, 0, 7])],
        "directory d: anode 7 has 2 blocks and not 1",
    );
    check(13, &[(4 * 512 + 36, &[0, 5])], "f, at byte 34 of block 4, names anode 5, which is under 6");
    check(13, &[(4 * 512 + 36, &[0, 99])], "f, at byte 34 of block 4, names anode 99, which is not in use");
    check(13, &[(4 * 512 + 36, &[0, 2])], "f, at byte 34 of block 4, names anode 2, which is under 6");
    check(
        14,
        &[(5 * 512 + 18, &[0, 9])],
        "\"d/a b\", at byte 16 of block 5, names anode 9, which f names already",
    );
    check(
        15,
        &[(5 * 512 + 20, &[0, 0, 4, 1])],
        "\"d/a b\", at byte 16 of block 5: 1025 bytes need 3 blocks, and its chain of anode 8 has 2",
    );
    check(16, &[(4 * 512 + 34, &[0])], "the chain of anode 9 is named by no entry: block 12");
    for name in ["D", "d"] {
        let place = format!(
            "{name}, at byte 34 of block 4, has the name of d, at byte 16 of block 4, capitals counted as small letters"
        );
        check(17, &[(4 * 512 + 50, name.as_bytes())], &place);
    }
}

#[test]
fn other_sizes_and_several_disks() {
    let folder = Folder::new("where_several");
    let sound = disk(&folder);
    folder.write("cut.adf", &sound[..1_000]);
    folder.write("small.adf", &sound[..4 * 512]);
    let run = folder.run(&["check", "--where", "cut.adf", "disk.adf", "small.adf"]);
    let lines: Vec<&str> = run.out.lines().collect();
    assert_eq!((run.status, lines.len()), (3, 7), "{}", run.out);
    assert_eq!(lines[1], "  the image has 1000 bytes: 1 blocks and 488 bytes more");
    assert_eq!((lines[2], lines[4]), ("disk.adf: 0: accepted", "  the image has 4 blocks"));
    assert!(lines[5].starts_with("The place is found by a model"));
    assert!(lines[6].starts_with("The bytes inside files are not checked"));
    let json = folder.run(&["check", "--where", "--json", "small.adf"]).out;
    assert!(json.ends_with("\"where_not_proved\": \"the image has 4 blocks\"}]\n"), "{json}");
}
