//! Two names that look alike (02, No. 5), by hand. A to Z fold onto a to z, and no other byte. Two entries of one directory
//! whose names are then equal are 17, which the walk tries for each entry between 12 and 13.
//!
//! Files of one letter have entries of 18 bytes: 27 fill a directory block, and the next one goes into another.

use ovenknit_host::calls::{Call, Library, Stamp, BLOCK, DIRECTORY, FILE, ROOT, TOTALS};
use ovenknit_host::model::layout::{
    put_long, put_word, DIRECTORY_OWNER, ENTRY_ANODE, ENTRY_NAME, ENTRY_SIZE, ENTRY_TYPE, FIRST_ENTRY,
    ROOT_BLOCK, ROOT_LAST_RESERVED,
};

use crate::disk::Disk;

/// The bytes of an entry with a name of one letter.
const ENTRY: usize = 18;

/// A disk of 20 blocks with files of these names in its root, which is block 4. Their heads are 7 and those after it.
fn with_files<L: Library>(names: &[u8]) -> Disk<L> {
    let mut disk = Disk::format(20, 9, 1);
    for name in names {
        assert_eq!(disk.make(ROOT, FILE, &[*name]), 0);
    }
    disk
}

/// The field of an entry that is in this block, at this place from 0.
fn field<L: Library>(disk: &mut Disk<L>, block: u16, place: usize, field: usize) -> &mut [u8] {
    &mut disk.block_mut(block)[FIRST_ENTRY + ENTRY * place + field..]
}

fn put_name<L: Library>(disk: &mut Disk<L>, block: u16, place: usize, name: u8) {
    field(disk, block, place, ENTRY_NAME)[0] = name;
}

/// Spoils an entry so that it gives this number from 12 to 15; for 14 its head becomes this one.
fn spoil<L: Library>(disk: &mut Disk<L>, block: u16, place: usize, number: u32, named: u16) {
    match number {
        12 => field(disk, block, place, ENTRY_TYPE)[0] = 7,
        13 => put_word(field(disk, block, place, ENTRY_ANODE), 0, 5),
        14 => put_word(field(disk, block, place, ENTRY_ANODE), 0, named),
        _ => put_long(field(disk, block, place, ENTRY_SIZE), 0, 1),
    }
}

/// A name with the letters that a mask says in capitals, the others in small letters.
fn in_case(name: &[u8], mask: u32) -> Vec<u8> {
    let letter = |(place, byte): (usize, &u8)| match mask >> place & 1 {
        1 => byte.to_ascii_uppercase(),
        _ => byte.to_ascii_lowercase(),
    };
    name.iter().enumerate().map(letter).collect()
}

/// The name of the entry at a place of the root, as it is stored.
fn stored<L: Library>(disk: &mut Disk<L>, place: u64) -> Vec<u8> {
    let (answer, fields) = disk.list(ROOT, place);
    assert_eq!(answer, 0);
    disk.image[fields[7] as usize..][..fields[8] as usize].to_vec()
}

/// The paper's own pair. Lookup and 23 fold, make stores the caller's bytes, and list shows the stored ones.
fn batch7_is_one_name_in_every_case<L: Library>() {
    let (directory, stamp) = (ROOT, Stamp::new(7, 8, 9));
    let mut disk = Disk::<L>::format(20, 9, 1);
    assert_eq!(disk.make(ROOT, FILE, b"BATCH7"), 0);
    for mask in 0..64 {
        let name = in_case(b"batch7", mask);
        for kind in [FILE, DIRECTORY] {
            assert_eq!(disk.make(ROOT, kind, &name), 23, "{name:?}");
        }
        let comment = b"another".to_vec();
        let made = Call::Make { directory, kind: FILE, name: name.clone(), comment, stamp, protection: 0 };
        assert_eq!(disk.run(made).answer, 23);
        let found = disk.run(Call::Find { directory, name: name.clone() });
        assert_eq!((found.answer, found.output.entry), disk.list(ROOT, 0));
        assert_eq!(disk.resize(&name, 600 + u64::from(mask)), 0);
        assert_eq!(disk.write(&name, 598, &[mask as u8, 1]), 0);
        assert_eq!(disk.read(b"BATCH7", 598, 2), (0, vec![mask as u8, 1]));
        assert_eq!(disk.read(&name, 598, 2), (0, vec![mask as u8, 1]));
        assert_eq!(stored(&mut disk, 0), b"BATCH7");
    }
    for name in [&b"batch"[..], b"batch77", b"batch8", b"botch7", b" batch7", b"batch\x17"] {
        assert_eq!(disk.remove(ROOT, name), 22, "{name:?}");
    }
    // Once it has gone, the name is free in every case.
    for mask in 0..64 {
        assert_eq!(disk.remove(ROOT, &in_case(b"batch7", !mask)), 0);
        let name = in_case(b"batch7", mask);
        assert_eq!(disk.make(ROOT, FILE, &name), 0);
        assert_eq!((stored(&mut disk, 0), disk.list(ROOT, 1).0), (name, 22));
    }
}

/// Reading 2, by make: of all names of one byte only the 26 letters are there in the other case.
fn only_a_to_z_fold_in_make<L: Library>() {
    let mut disk = Disk::<L>::format(60, 20, 4);
    let mut made = 0;
    for byte in 0..=255u8 {
        let answer = match byte {
            0 | b':' | b'/' => 20,
            b'a'..=b'z' => 23,
            _ => 0,
        };
        assert_eq!(disk.make(ROOT, FILE, &[byte]), answer, "{byte}");
        made += u64::from(answer == 0);
    }
    assert_eq!((made, disk.list(ROOT, made).0, disk.list(ROOT, made - 1).0), (227, 22, 0));
    // The other way round.
    let mut disk = with_files::<L>(b"az");
    for (name, answer) in
        [(b'A', 23), (b'Z', 23), (b'@', 0), (b'[', 0), (b'`', 0), (b'{', 0), (196, 0), (228, 0)]
    {
        assert_eq!(disk.make(ROOT, FILE, &[name]), answer, "{name}");
    }
}

/// Reading 2, by the check: 196 and 228 differ, `[` and `{` differ, and so do all bytes but a letter and its capital.
fn only_a_to_z_fold_in_the_check<L: Library>() {
    let mut disk = with_files::<L>(b"12");
    let allowed = |byte: &u8| ![0, b':', b'/'].contains(byte);
    for first in (b'?'..=b'|').chain([16, 32, 48, 192, 196, 221, 222, 228, 255]) {
        put_name(&mut disk, 4, 0, first);
        for second in (0..=255u8).filter(allowed) {
            put_name(&mut disk, 4, 1, second);
            let one_letter = first.is_ascii_alphabetic() && first ^ second == 32;
            let expected = if first == second || one_letter { 17 } else { 0 };
            assert_eq!(disk.check(), expected, "{first} and {second}");
        }
    }
    for (first, second) in [(196, 228), (b'[', b'{'), (b'@', b'`'), (b'^', b'~')] {
        put_name(&mut disk, 4, 0, first);
        put_name(&mut disk, 4, 1, second);
        assert_eq!(disk.check(), 0, "{first} and {second}");
    }
}

/// Every byte of a name counts, up to the 107th.
fn long_names_differ_in_any_byte<L: Library>() {
    for place in [0, 1, 53, 105, 106] {
        let mut disk = Disk::<L>::format(20, 9, 1);
        let mut name = [b'x'; 107];
        assert_eq!(disk.make(ROOT, FILE, &name), 0);
        for (byte, answer) in [(b'X', 23), (b'y', 0), (b'Y', 23), (b'[', 0), (b'{', 22)] {
            name[place] = byte;
            match answer {
                22 => assert_eq!(disk.remove(ROOT, &name), 22),
                _ => assert_eq!(disk.make(ROOT, FILE, &name), answer, "{byte} at {place}"),
            }
        }
        // A name that is only the beginning of another is another.
        assert_eq!(disk.make(ROOT, FILE, &[b'X'; 106]), 0);
    }
}

/// Reading 1: against all earlier entries of the directory, in all its blocks, names equal byte for byte too.
fn every_pair_of_a_directory_is_refused<L: Library>() {
    let mut disk = Disk::<L>::format(60, 20, 1);
    let names: Vec<u8> = (b'A'..=b'Z').chain(*b"12").collect();
    for name in &names {
        assert_eq!(disk.make(ROOT, FILE, &[*name]), 0);
    }
    // The last of the 28 is in a second block.
    assert_eq!((disk.anode(5), disk.anode(35)), ((1, 4, 35), (1, 5, 0)));
    let accepted = disk.image.clone();
    let place = |entry: usize| if entry < 27 { (4, entry) } else { (5, 0) };
    for second in 0..28 {
        for first in (0..28).filter(|&first| first != second) {
            let (block, entry) = place(second);
            for name in [names[first], names[first].to_ascii_lowercase()] {
                put_name(&mut disk, block, entry, name);
                assert_eq!(disk.check(), 17, "{first} and {second}");
            }
            disk.image.clone_from(&accepted);
        }
        let (block, entry) = place(second);
        put_name(&mut disk, block, entry, names[second].to_ascii_lowercase());
        assert_eq!(disk.check(), 0, "its own name in small letters");
    }
}

/// The same name in two directories is no fault, nor is that of a directory in itself.
fn names_of_two_directories_may_be_alike<L: Library>() {
    let mut disk = Disk::<L>::format(60, 20, 1);
    for name in [b"d", b"e"] {
        assert_eq!(disk.make(ROOT, DIRECTORY, name), 0);
    }
    let names = [(ROOT, b"batch7"), (7, b"BATCH7"), (8, b"Batch7")];
    for (directory, name) in names {
        assert_eq!(disk.make(directory, FILE, name), 0);
        assert_eq!(disk.make(directory, DIRECTORY, b"baTCH7"), 23);
    }
    assert_eq!(
        (disk.make(7, FILE, b"D"), disk.make(7, FILE, b"d"), disk.make(8, DIRECTORY, b"d")),
        (0, 23, 0)
    );
    for (directory, name) in names {
        let found = disk.run(Call::Find { directory, name: b"BAtch7".to_vec() });
        let fields = found.output.entry;
        assert_eq!((found.answer, &disk.image[fields[7] as usize..][..6]), (0, &name[..]));
        assert_eq!(disk.remove(directory, b"bATCH7"), 0);
        assert_eq!(disk.remove(directory, b"bATCH7"), 22);
    }
}

/// Reading 1: for each entry 12, 17, 13, 14, 15.
fn seventeen_comes_between_12_and_13_of_an_entry<L: Library>() {
    let disk = || with_files::<L>(b"axbyc");
    for number in 12..=15 {
        let mut alone = disk();
        spoil(&mut alone, 4, 2, number, 7);
        assert_eq!(alone.check(), number);
        let mut both = disk();
        put_name(&mut both, 4, 2, b'A');
        assert_eq!(both.check(), 17);
        spoil(&mut both, 4, 2, number, 7);
        assert_eq!(both.check(), if number == 12 { 12 } else { 17 }, "{number} in the same entry");
    }
}

/// Reading 1: the first fault met in the walk answers. A pair whose earlier entry has a 13 is 13.
fn the_first_fault_of_the_walk_answers<L: Library>() {
    for number in 12..=15 {
        // The second and the fourth of five look alike.
        for (place, expected) in [(0, number), (1, number), (2, number), (4, 17)] {
            let mut disk = with_files::<L>(b"abcde");
            put_name(&mut disk, 4, 3, b'B');
            assert_eq!(disk.check(), 17);
            // Before the first entry no head is named: for 14 it names that of the second, which is then met.
            let named = if place == 0 { 8 } else { 7 };
            spoil(&mut disk, 4, place, number, named);
            assert_eq!(disk.check(), expected, "{number} in entry {place}");
        }
    }
}

/// A disk whose root (block 4) has the directories d (7, block 5) and e (8, block 6) and the file f (9), each directory with
/// the files a and b.
fn with_directories<L: Library>() -> Disk<L> {
    let mut disk = Disk::format(20, 9, 1);
    for (kind, name) in [(DIRECTORY, b"d"), (DIRECTORY, b"e"), (FILE, b"f")] {
        assert_eq!(disk.make(ROOT, kind, name), 0);
    }
    for directory in [7, 8] {
        assert_eq!((disk.make(directory, FILE, b"a"), disk.make(directory, FILE, b"b")), (0, 0));
    }
    disk
}

/// The walk goes through the root first, then through d, then through e.
fn the_walk_goes_directory_by_directory<L: Library>() {
    for number in 12..=15 {
        for (pair, fault, place, expected) in [
            // In the root's last entry, before both directories.
            (5, 4, 2, number),
            (6, 4, 2, number),
            // In d, before e and behind the pair in d; in e, behind that.
            (6, 5, 0, number),
            (6, 5, 1, number),
            (5, 6, 0, 17),
            (5, 6, 1, 17),
        ] {
            let mut disk = with_directories::<L>();
            put_name(&mut disk, pair, 1, b'A');
            assert_eq!(disk.check(), 17);
            spoil(&mut disk, fault, place, number, 7);
            assert_eq!(disk.check(), expected, "{number} in block {fault}, a pair in block {pair}");
        }
    }
    // The head of a block comes before its entries: 12 in d's block is met before a pair there, 12 in e's is not.
    for (block, expected) in [(4, 12), (5, 12), (6, 17)] {
        for at in [0, 1, DIRECTORY_OWNER + 1] {
            let mut disk = with_directories::<L>();
            put_name(&mut disk, 5, 1, b'A');
            disk.block_mut(block)[at] ^= 1;
            assert_eq!(disk.check(), expected, "block {block}");
        }
    }
    // A pair in the root comes before all that is below.
    let mut disk = with_directories::<L>();
    put_name(&mut disk, 4, 2, b'E');
    for block in [5, 6] {
        disk.block_mut(block)[0] = 0;
    }
    assert_eq!(disk.check(), 17);
}

/// Two blocks of one directory: the second one's head and what follows it.
fn a_12_that_the_walk_meets_later_is_not_answered<L: Library>() {
    let mut disk = Disk::<L>::format(60, 20, 1);
    for name in (b'A'..=b'Z').chain(*b"12") {
        assert_eq!(disk.make(ROOT, FILE, &[name]), 0);
    }
    let accepted = disk.image.clone();
    // The later name is in the first block, or in the second, whose head comes before it.
    for (block, entry, head) in [(4, 26, 17), (5, 0, 12)] {
        disk.image.clone_from(&accepted);
        put_name(&mut disk, block, entry, b'a');
        assert_eq!(disk.check(), 17);
        disk.set(&[(35, (1, 5, 36)), (36, (0, 65_535, 0))]);
        assert_eq!(disk.check(), 17, "an empty anode behind the directory's blocks");
        disk.block_mut(5)[0] = b'X';
        assert_eq!(disk.check(), head);
    }
    disk.image.clone_from(&accepted);
    disk.set(&[(35, (1, 5, 36)), (36, (0, 65_535, 0))]);
    assert_eq!(disk.check(), 12);
}

/// 17 is inside the walk: behind 3 to 11, and before 16.
fn seventeen_comes_behind_11_and_before_16<L: Library>() {
    for (fault, number) in [
        ((0, (1, 65_535, 0)), 6),
        ((20, (3, 0, 0)), 7),
        ((6, (10, 10, 6)), 8),
        ((1, (0, 65_535, 0)), 9),
        ((5, (2, 4, 0)), 10),
        ((6, (9, 10, 2)), 11),
        ((20, (0, 65_535, 0)), 16),
    ] {
        let mut disk = with_files::<L>(b"ab");
        disk.set(&[fault]);
        assert_eq!(disk.check(), number, "{fault:?}");
        put_name(&mut disk, 4, 1, b'A');
        assert_eq!(disk.check(), if number == 16 { 17 } else { number }, "{fault:?}");
    }
    let mut disk = with_files::<L>(b"ab");
    put_name(&mut disk, 4, 1, b'a');
    assert_eq!(disk.check(), 17);
    disk.block_mut(3)[0] = b'X';
    assert_eq!(disk.check(), 5);
    put_word(disk.block_mut(ROOT_BLOCK), ROOT_LAST_RESERVED, 1);
    assert_eq!(disk.check(), 4);
    disk.block_mut(ROOT_BLOCK)[0] = 0;
    assert_eq!(disk.check(), 3);
    disk.blocks.pop();
    assert_eq!(disk.check(), 2);
    disk.image.pop();
    assert_eq!(disk.check(), 1);
}

/// 17 is damage: every call answers it, changes nothing, and leaves the tables zeroed, but not past their ends.
fn every_call_refuses_it_and_changes_nothing<L: Library>() {
    let mut disk = with_files::<L>(b"ab");
    assert_eq!(disk.resize(b"a", 700), 0);
    put_name(&mut disk, 4, 1, b'A');
    let damaged = disk.image.clone();
    disk.blocks.extend([0; 3]);
    disk.anodes.extend([0; 3]);
    let (directory, stamp) = (ROOT, Stamp::new(7, 8, 9));
    for name in [b"a".to_vec(), b"A".to_vec(), b"c".to_vec()] {
        let (comment, name) = (Vec::new(), || name.clone());
        for call in [
            Call::Check,
            Call::Summary,
            Call::Label,
            Call::Bitmap { length: 1_024 },
            Call::BitmapDiffers { bitmap: vec![0; 1_024] },
            Call::Report { totals: [0; TOTALS] },
            Call::Find { directory, name: name() },
            Call::Read { directory, name: name(), offset: 0, length: 7 },
            Call::List { directory, place: 0 },
            Call::Make { directory, kind: FILE, name: name(), comment, stamp, protection: 0 },
            Call::Resize { directory, name: name(), size: 1_200 },
            Call::Write { directory, name: name(), offset: 0, data: vec![1] },
            Call::Remove { directory, name: name() },
        ] {
            disk.blocks.fill(9);
            disk.anodes.fill(9);
            assert_eq!(disk.compare(&call).answer, 17, "{call:?}");
            assert_eq!(disk.image, damaged, "{call:?}");
            let (blocks, anodes) = (disk.blocks.split_at(20), disk.anodes.split_at(3_444));
            assert!(blocks.0.iter().chain(anodes.0).all(|&entry| entry == 0), "{call:?}");
            assert_eq!((blocks.1, anodes.1), (&[9; 3][..], &[9; 3][..]), "{call:?}");
        }
    }
}

/// The shift report has a place for it.
fn a_report_counts_it_under_17<L: Library>() {
    let mut disk = with_files::<L>(b"ab");
    put_name(&mut disk, 4, 1, b'A');
    let mut totals = [0; TOTALS];
    (totals[0], totals[16], totals[17], totals[18]) = (3, 4, 5, 6);
    let outcome = disk.compare(&Call::Report { totals });
    totals[17] = 6;
    assert_eq!((outcome.answer, outcome.output.totals, outcome.output.disk), (17, totals, [0; 5]));
}

/// Only the entries count: what stands behind the end mark, in comments and in other blocks is no name.
fn only_entries_have_names<L: Library>() {
    let mut disk = with_files::<L>(b"ab");
    assert_eq!(disk.remove(ROOT, b"b"), 0);
    let entry = disk.block(4)[FIRST_ENTRY..FIRST_ENTRY + ENTRY].to_vec();
    // The same entry again, behind the end mark.
    disk.block_mut(4)[FIRST_ENTRY + ENTRY + 2..][..ENTRY].copy_from_slice(&entry);
    assert_eq!(disk.check(), 0);
    let (directory, kind, name, stamp) = (ROOT, FILE, b"c".to_vec(), Stamp::new(7, 8, 9));
    let made = Call::Make { directory, kind, name, comment: b"A".to_vec(), stamp, protection: 0 };
    assert_eq!(disk.run(made).answer, 0);
    assert_eq!((disk.make(ROOT, FILE, b"A"), disk.make(ROOT, FILE, b"b")), (23, 0));
    assert_eq!(disk.image.len(), 20 * BLOCK);
}

both!(
    batch7_is_one_name_in_every_case,
    only_a_to_z_fold_in_make,
    only_a_to_z_fold_in_the_check,
    long_names_differ_in_any_byte,
    every_pair_of_a_directory_is_refused,
    names_of_two_directories_may_be_alike,
    seventeen_comes_between_12_and_13_of_an_entry,
    the_first_fault_of_the_walk_answers,
    the_walk_goes_directory_by_directory,
    a_12_that_the_walk_meets_later_is_not_answered,
    seventeen_comes_behind_11_and_before_16,
    every_call_refuses_it_and_changes_nothing,
    a_report_counts_it_under_17,
    only_entries_have_names,
);
