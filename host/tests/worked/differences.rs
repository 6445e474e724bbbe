//! How two disks differ (02, No. 7), by hand. D is the disk of 20 blocks with L 9 and one anode block; its root directory is in
//! block 4, so the root's first entry begins at byte 2,064.

use ovenknit_host::calls::{Call, Library, Stamp, ANODES, BLOCK, DIRECTORY, FILE, ROOT};
use ovenknit_host::differences::{Comparer, COMMENT, NAME, PROTECTION, SIZE, STAMPS, TYPE};
use ovenknit_host::model::layout::{
    put_long, put_word, ENTRY_SIZE, FIRST_ENTRY, ROOT_BLOCK, ROOT_DAY, ROOT_NAME, ROOT_PROTECTION,
};
use ovenknit_host::pairs::{Listed, Numbers, Pair, Side};
use ovenknit_host::rng::Rng;

use crate::disk::Disk;

/// Where the first entry of a directory block begins.
const fn first_entry(block: u32) -> u32 {
    block * BLOCK as u32 + FIRST_ENTRY as u32
}

/// Where the root's first entry begins on D.
const FIRST: u32 = first_entry(4);

/// All differences of two accepted images, asked for in every way and both ways round.
fn differences<C: Comparer>(first: &[u8], second: &[u8]) -> Vec<Numbers> {
    let compared = Pair::new(first.to_vec(), second.to_vec()).both_ways::<C>(&mut Rng::new(7));
    compared.expect("both are accepted")
}

fn in_first(place: u32) -> Numbers {
    [1, place, 0, 0, 0, 0]
}

fn in_second(place: u32) -> Numbers {
    [2, 0, place, 0, 0, 0]
}

fn copy<L: Library>(disk: &Disk<L>) -> Disk<L> {
    Disk::new(disk.image.clone())
}

/// D with the file `pack` of these bytes.
fn with_file<L: Library>(bytes: &[u8]) -> Disk<L> {
    let mut disk = Disk::format(20, 9, 1);
    assert_eq!(disk.make(ROOT, FILE, b"pack"), 0);
    set_bytes(&mut disk, bytes);
    disk
}

/// Gives `pack` these bytes.
fn set_bytes<L: Library>(disk: &mut Disk<L>, bytes: &[u8]) {
    assert_eq!((disk.resize(b"pack", bytes.len() as u64), disk.write(b"pack", 0, bytes)), (0, 0));
}

/// Bytes of this length that are mostly 1; those at these places are 2.
fn bytes(length: usize, others: &[usize]) -> Vec<u8> {
    let mut bytes = vec![1; length];
    others.iter().for_each(|&place| bytes[place] = 2);
    bytes
}

/// Makes an entry of a type in a directory with all fields told.
fn make<L: Library>(disk: &mut Disk<L>, directory: u16, kind: u8, name: &[u8], fields: (&[u8], Stamp, u8)) {
    let (comment, stamp, protection) = fields;
    let (name, comment) = (name.to_vec(), comment.to_vec());
    assert_eq!(disk.run(Call::Make { directory, kind, name, comment, stamp, protection }).answer, 0);
}

fn bytes_and_sizes<L: Library + Comparer>() {
    for (one, other, expected) in [
        // 600 and 603, bytes 7 and 599 differ.
        (bytes(600, &[]), bytes(603, &[7, 599]), Some((SIZE, 7, 5))),
        // Equal up to the shorter end.
        (bytes(600, &[]), bytes(603, &[]), Some((SIZE, 600, 3))),
        (bytes(512, &[]), bytes(513, &[]), Some((SIZE, 512, 1))),
        (bytes(0, &[]), bytes(603, &[]), Some((SIZE, 0, 603))),
        // Bytes alone: no field is set.
        (bytes(600, &[]), bytes(600, &[7]), Some((0, 7, 1))),
        (bytes(600, &[0]), bytes(600, &[599]), Some((0, 0, 2))),
        (bytes(1_500, &[511]), bytes(1_500, &[512, 1_024]), Some((0, 511, 3))),
        (bytes(600, &[3]), bytes(600, &[3]), None),
        (bytes(0, &[]), bytes(0, &[]), None),
    ] {
        let expected: Vec<Numbers> =
            expected.map(|(fields, byte, many)| [3, FIRST, FIRST, fields, byte, many]).into_iter().collect();
        let (one, other) = (with_file::<L>(&one), with_file::<L>(&other));
        assert_eq!(differences::<L>(&one.image, &other.image), expected);
    }
}

fn each_field_alone_and_all_together<L: Library + Comparer>() {
    let stamp = Stamp::new(7, 8, 9);
    let usual = (&b"white bread"[..], stamp, 1);
    for kind in [FILE, DIRECTORY] {
        let mut disk = Disk::<L>::format(20, 9, 1);
        make(&mut disk, ROOT, kind, b"Pack7", usual);
        for (name, fields, differing) in [
            (&b"Pack7"[..], usual, 0),
            (b"pAck7", usual, NAME),
            (b"Pack7", (b"White bread", stamp, 1), COMMENT),
            (b"Pack7", (b"white brea", stamp, 1), COMMENT),
            (b"Pack7", (b"", stamp, 1), COMMENT),
            (b"Pack7", (b"white bread", Stamp::new(8, 8, 9), 1), STAMPS),
            (b"Pack7", (b"white bread", Stamp::new(7, 9, 9), 1), STAMPS),
            (b"Pack7", (b"white bread", Stamp::new(7, 8, 265), 1), STAMPS),
            (b"Pack7", (b"white bread", stamp, 129), PROTECTION),
            (b"PACK7", (b"rye", Stamp::new(0, 0, 0), 0), NAME | COMMENT | STAMPS | PROTECTION),
        ] {
            let mut other = Disk::<L>::format(20, 9, 1);
            make(&mut other, ROOT, kind, name, fields);
            let expected = if differing == 0 { vec![] } else { vec![[3, FIRST, FIRST, differing, 0, 0]] };
            assert_eq!(differences::<L>(&disk.image, &other.image), expected);
        }
    }
}

/// A file here and a directory there: one difference in both with the type, no size and no bytes; what lies below is only in
/// the one.
fn a_file_against_a_directory<L: Library + Comparer>() {
    let mut file = Disk::<L>::format(20, 9, 1);
    make(&mut file, ROOT, FILE, b"pack", (b"", Stamp::new(7, 8, 9), 0));
    set_bytes(&mut file, &bytes(600, &[]));
    let mut directory = Disk::<L>::format(20, 9, 1);
    make(&mut directory, ROOT, DIRECTORY, b"pack", (b"", Stamp::new(7, 8, 9), 0));
    // The directory pack has block 5, and old in it has block 6.
    assert_eq!((directory.make(7, DIRECTORY, b"old"), directory.make(8, FILE, b"x")), (0, 0));
    assert_eq!(
        differences::<L>(&file.image, &directory.image),
        [[3, FIRST, FIRST, TYPE, 0, 0], in_second(first_entry(5)), in_second(first_entry(6))]
    );
    assert_eq!(
        differences::<L>(&directory.image, &file.image),
        [[3, FIRST, FIRST, TYPE, 0, 0], in_first(first_entry(5)), in_first(first_entry(6))]
    );
    // With every other field.
    let mut other = Disk::<L>::format(20, 9, 1);
    make(&mut other, ROOT, DIRECTORY, b"PACK", (b"rye", Stamp::default(), 1));
    let all = TYPE | NAME | COMMENT | STAMPS | PROTECTION;
    assert_eq!(differences::<L>(&file.image, &other.image), [[3, FIRST, FIRST, all, 0, 0]]);
}

/// A directory that one disk lacks is listed with everything below it, in the order of the walk.
fn a_missing_directory_with_all_below<L: Library + Comparer>() {
    let empty = Disk::<L>::format(20, 9, 1);
    let mut disk = copy(&empty);
    // d is 7 and has block 5, e is 8 and has block 6.
    assert_eq!((disk.make(ROOT, DIRECTORY, b"d"), disk.make(7, DIRECTORY, b"e")), (0, 0));
    for (directory, name) in [(8, b"f"), (7, b"g"), (ROOT, b"h")] {
        assert_eq!(disk.make(directory, FILE, name), 0);
    }
    let places = [FIRST, FIRST + 18, first_entry(5), first_entry(5) + 18, first_entry(6)];
    assert_eq!(differences::<L>(&disk.image, &empty.image), places.map(in_first));
    assert_eq!(differences::<L>(&empty.image, &disk.image), places.map(in_second));
}

/// Those of the first in its walk order, in both and only there mixed; then those only in the second in its own.
fn the_order<L: Library + Comparer>() {
    let (mut one, mut other) = (Disk::<L>::format(20, 9, 1), Disk::<L>::format(20, 9, 1));
    // d is 7 and has block 5 on both.
    for disk in [&mut one, &mut other] {
        assert_eq!(disk.make(ROOT, DIRECTORY, b"d"), 0);
    }
    for (directory, name) in [(7, &b"x"[..]), (7, b"y"), (ROOT, b"a"), (ROOT, b"b"), (ROOT, b"c")] {
        assert_eq!(one.make(directory, FILE, name), 0);
    }
    for (directory, name) in
        [(7, &b"z"[..]), (7, b"Y"), (ROOT, b"e"), (ROOT, b"C"), (ROOT, b"b"), (ROOT, b"A")]
    {
        assert_eq!(other.make(directory, FILE, name), 0);
    }
    // The roots: d, a, b, c and d, e, C, b, A. In d: x, y and z, Y.
    let (root, inside) = (|n: u32| FIRST + 18 * n, |n: u32| first_entry(5) + 18 * n);
    assert_eq!(
        differences::<L>(&one.image, &other.image),
        [
            [3, root(1), root(4), NAME, 0, 0],
            [3, root(3), root(2), NAME, 0, 0],
            in_first(inside(0)),
            [3, inside(1), inside(1), NAME, 0, 0],
            in_second(root(1)),
            in_second(inside(0)),
        ]
    );
}

/// Paths are matched by folded names, through directories too; no other byte folds.
fn paths_by_folded_names<L: Library + Comparer>() {
    let (mut one, mut other) = (Disk::<L>::format(20, 9, 1), Disk::<L>::format(20, 9, 1));
    for (disk, directory, file) in [(&mut one, b"Recipes", b"pack"), (&mut other, b"recipeS", b"PACK")] {
        assert_eq!((disk.make(ROOT, DIRECTORY, directory), disk.make(7, FILE, file)), (0, 0));
    }
    let inside = first_entry(5);
    assert_eq!(
        differences::<L>(&one.image, &other.image),
        [[3, FIRST, FIRST, NAME, 0, 0], [3, inside, inside, NAME, 0, 0]]
    );
    for (name, near) in [(b"[", b"{"), (b"@", b"`"), (&[196], &[228])] {
        let (mut one, mut other) = (Disk::<L>::format(20, 9, 1), Disk::<L>::format(20, 9, 1));
        assert_eq!((one.make(ROOT, FILE, name), other.make(ROOT, FILE, near)), (0, 0));
        assert_eq!(differences::<L>(&one.image, &other.image), [in_first(FIRST), in_second(FIRST)]);
    }
    // The same name in another directory is another path.
    let (mut one, mut other) = (Disk::<L>::format(20, 9, 1), Disk::<L>::format(20, 9, 1));
    for disk in [&mut one, &mut other] {
        assert_eq!(disk.make(ROOT, DIRECTORY, b"d"), 0);
    }
    assert_eq!((one.make(ROOT, FILE, b"x"), other.make(7, FILE, b"x")), (0, 0));
    assert_eq!(differences::<L>(&one.image, &other.image), [in_first(FIRST + 18), in_second(first_entry(5))]);
}

/// The disk's name and root fields, bytes behind the size, a directory's size field and pads.
fn what_no_rule_compares<L: Library + Comparer>() {
    let mut one = with_file::<L>(&bytes(600, &[]));
    // `pack` has 4 and 17 bytes, so a pad; the directory is behind its 22.
    assert_eq!(one.make(ROOT, DIRECTORY, b"d"), 0);
    let mut other = copy(&one);
    let root = other.block_mut(ROOT_BLOCK);
    put_word(root, ROOT_DAY, 9_999);
    put_word(root, ROOT_PROTECTION, 9_999);
    root[ROOT_NAME..ROOT_NAME + 4].copy_from_slice(b"\x03new");
    other.block_mut(4)[FIRST_ENTRY + 21] = 0xFF;
    put_long(other.block_mut(4), FIRST_ENTRY + 22 + ENTRY_SIZE, 0xFFFF_FFFF);
    // The file has blocks 10 and 11.
    other.block_mut(11)[88..].fill(0xFF);
    assert_eq!(other.check(), 0);
    assert_eq!(differences::<L>(&one.image, &other.image), [] as [Numbers; 0]);
    // The last byte that counts is the one before them.
    other.block_mut(11)[87] = 0xFF;
    assert_eq!(differences::<L>(&one.image, &other.image), [[3, FIRST, FIRST, 0, 599, 1]]);
}

/// N, L, where files lie, their anodes, and the order within a directory.
fn other_disks_with_the_same_tree<L: Library + Comparer>() {
    let mut one = with_file::<L>(&bytes(1_500, &[700]));
    assert_eq!((one.make(ROOT, FILE, b"x"), one.make(ROOT, DIRECTORY, b"d")), (0, 0));
    let mut other = Disk::<L>::format(60, 30, 3);
    assert_eq!((other.make(ROOT, DIRECTORY, b"d"), other.make(ROOT, FILE, b"x")), (0, 0));
    assert_eq!(
        (other.make(ROOT, FILE, b"pack"), other.resize(b"pack", 500), other.resize(b"x", 512)),
        (0, 0, 0)
    );
    set_bytes(&mut other, &bytes(1_500, &[700]));
    assert_eq!(other.resize(b"x", 0), 0);
    let head = |disk: &mut Disk<L>, place| disk.list(ROOT, place).1[1];
    assert_ne!(head(&mut one, 0), head(&mut other, 2));
    assert_ne!(other.anode(9).2, 0, "the file lies in two extents");
    assert_eq!(differences::<L>(&one.image, &other.image), [] as [Numbers; 0]);
    // What differs has its own place in each: the root of the other is in block 6, where pack comes third.
    assert_eq!(other.write(b"pack", 1_499, b"9"), 0);
    let places = [FIRST, first_entry(6) + 18 + 18];
    assert_eq!(differences::<L>(&one.image, &other.image), [[3, places[0], places[1], 0, 1_499, 1]]);
}

/// Each kind of change by a list of calls on a copy.
fn changes_on_a_copy<L: Library + Comparer>() {
    let mut disk = with_file::<L>(&bytes(600, &[]));
    assert_eq!((disk.make(ROOT, DIRECTORY, b"d"), disk.make(8, FILE, b"x")), (0, 0));
    let (name, directory) = (b"pack".to_vec(), ROOT);
    let made = |directory, kind, name: &[u8]| {
        let (name, comment, stamp) = (name.to_vec(), Vec::new(), Stamp::new(7, 8, 9));
        Call::Make { directory, kind, name, comment, stamp, protection: 10 }
    };
    let resize = |size| Call::Resize { directory, name: name.clone(), size };
    let remove = |directory, name: &[u8]| Call::Remove { directory, name: name.to_vec() };
    let write =
        |offset, data: &[u8]| Call::Write { directory, name: name.clone(), offset, data: data.to_vec() };
    let inside = first_entry(5);
    for (calls, expected) in [
        (vec![], vec![]),
        (vec![resize(700), resize(600)], vec![]),
        (vec![write(3, &[1; 90])], vec![]),
        (vec![made(ROOT, FILE, b"new"), remove(ROOT, b"NEW")], vec![]),
        (vec![made(ROOT, FILE, b"new")], vec![in_second(FIRST + 22 + 18)]),
        (vec![made(8, DIRECTORY, b"new")], vec![in_second(inside + 18)]),
        (vec![resize(601)], vec![[3, FIRST, FIRST, SIZE, 600, 1]]),
        (vec![resize(0)], vec![[3, FIRST, FIRST, SIZE, 0, 600]]),
        // What is cut off and comes back is 0.
        (vec![resize(598), resize(600)], vec![[3, FIRST, FIRST, 0, 598, 2]]),
        (vec![write(510, &[1, 2, 2, 1])], vec![[3, FIRST, FIRST, 0, 511, 2]]),
        (vec![remove(8, b"x")], vec![in_first(inside)]),
        // The others move up, and are the same.
        (vec![remove(ROOT, b"pack")], vec![in_first(FIRST)]),
        (vec![remove(8, b"x"), remove(ROOT, b"d")], vec![in_first(FIRST + 22), in_first(inside)]),
        (
            vec![remove(8, b"x"), made(8, DIRECTORY, b"X"), write(0, b"9")],
            vec![[3, FIRST, FIRST, 0, 0, 1], [3, inside, inside, TYPE | NAME, 0, 0]],
        ),
    ] {
        let mut other = copy(&disk);
        for call in &calls {
            assert_eq!(other.run(call.clone()).answer, 0, "{call:?}");
        }
        assert_eq!(differences::<L>(&disk.image, &other.image), expected, "{calls:?}");
    }
}

/// The table entries before a call.
const JUNK: u16 = 0x5A5A;

/// D in an image with so many junk entries in its tables.
fn lent(image: &[u8], blocks: usize, anodes: usize) -> Side {
    Side { image: image.to_vec(), blocks: vec![JUNK; blocks], anodes: vec![JUNK; anodes] }
}

/// What both calls answer and leave, where one is refused.
fn refused<C: Comparer>(first: &Side, second: &Side) -> ((u32, u32), Pair) {
    let mut pairs = Vec::new();
    for place in [0, u64::MAX] {
        let mut pair = Pair { first: first.clone(), second: second.clone() };
        let (answer, fields) = pair.compare::<C>(place);
        let [image, rest @ ..] = fields;
        assert_eq!(rest, [0; 6]);
        pairs.push(((image, answer), pair));
        let mut pair = Pair { first: first.clone(), second: second.clone() };
        let Listed { answer, refused, differences } = pair.differences::<C>(place, 20);
        assert_eq!(differences, [] as [Numbers; 0]);
        pairs.push(((refused, answer), pair));
    }
    assert!(pairs.iter().all(|pair| *pair == pairs[0]));
    pairs.swap_remove(0)
}

/// The second is checked only after the first is accepted; 2 is each image's own.
fn refusals_and_tables<L: Library + Comparer>() {
    let disk = Disk::<L>::format(20, 9, 1);
    let sound = lent(&disk.image, 21, ANODES + 1);
    let mut image = disk.image.clone();
    image[2 * BLOCK] = 0;
    let no_disk = lent(&image, 21, ANODES + 1);
    let mut image = disk.image.clone();
    image[4 * BLOCK] = 0;
    let damaged = lent(&image, 21, ANODES + 1);
    let cut = lent(&disk.image[1..], 21, ANODES + 1);
    let (few_blocks, few_anodes) = (lent(&disk.image, 19, ANODES), lent(&disk.image, 20, ANODES - 1));
    // What a check leaves in the tables: junk behind their ends stays.
    let mut checked = sound.clone();
    let answer = ovenknit_host::model::check(&checked.image, &mut checked.blocks, &mut checked.anodes);
    assert_eq!((answer, checked.blocks[20], checked.anodes[ANODES]), (0, JUNK, JUNK));
    let mut zeroed = damaged.clone();
    zeroed.blocks[..20].fill(0);
    zeroed.anodes[..ANODES].fill(0);

    for (first, second, refusal, left) in [
        (&cut, &cut, (1, 1), (&cut, &cut)),
        (&few_blocks, &sound, (1, 2), (&few_blocks, &sound)),
        (&few_anodes, &no_disk, (1, 2), (&few_anodes, &no_disk)),
        (&no_disk, &damaged, (1, 3), (&no_disk, &damaged)),
        (&damaged, &sound, (1, 12), (&zeroed, &sound)),
        (&damaged, &few_blocks, (1, 12), (&zeroed, &few_blocks)),
        (&sound, &few_blocks, (2, 2), (&checked, &few_blocks)),
        (&sound, &few_anodes, (2, 2), (&checked, &few_anodes)),
        (&sound, &cut, (2, 1), (&checked, &cut)),
        (&sound, &no_disk, (2, 3), (&checked, &no_disk)),
        (&sound, &damaged, (2, 12), (&checked, &zeroed)),
    ] {
        let (given, pair) = refused::<L>(first, second);
        assert_eq!(given, refusal);
        assert!((&pair.first, &pair.second) == left, "{refusal:?}");
    }
    // 22 comes after both checks, and shows both disks.
    let (given, pair) = {
        let mut pair = Pair { first: sound.clone(), second: sound.clone() };
        (pair.compare::<L>(0), pair)
    };
    assert_eq!(given, (22, [0; 7]));
    assert!(pair.first == checked && pair.second == checked);
}

fn places_and_buffers<L: Library + Comparer>() {
    let disk = Disk::<L>::format(20, 9, 1);
    let mut other = copy(&disk);
    assert_eq!((other.make(ROOT, FILE, b"a"), other.make(ROOT, FILE, b"b")), (0, 0));
    let (a, b) = (in_second(FIRST), in_second(FIRST + 18));
    let mut pair = Pair::new(disk.image.clone(), other.image.clone());
    assert_eq!(pair.compare::<L>(0), (0, [0, 2, 0, FIRST, 0, 0, 0]));
    assert_eq!(pair.compare::<L>(1), (0, [0, 2, 0, FIRST + 18, 0, 0, 0]));
    for place in [2, 3, 1 << 16, 1 << 32, (1 << 32) + 1, u64::MAX] {
        assert_eq!(pair.compare::<L>(place), (22, [0; 7]), "{place}");
        assert_eq!(pair.differences::<L>(place, 20).differences, [] as [Numbers; 0], "{place}");
    }
    // Whole ones only.
    for (place, room, expected) in [
        (0, 0, vec![]),
        (0, 5, vec![]),
        (0, 6, vec![a]),
        (0, 11, vec![a]),
        (0, 12, vec![a, b]),
        (0, 100, vec![a, b]),
        (1, 5, vec![]),
        (1, 6, vec![b]),
        (1, 100, vec![b]),
    ] {
        let listed = Listed { answer: 0, refused: 0, differences: expected };
        assert_eq!(pair.differences::<L>(place, room), listed, "{place} {room}");
    }
}

both! {
    bytes_and_sizes,
    each_field_alone_and_all_together,
    a_file_against_a_directory,
    a_missing_directory_with_all_below,
    the_order,
    paths_by_folded_names,
    what_no_rule_compares,
    other_disks_with_the_same_tree,
    changes_on_a_copy,
    refusals_and_tables,
    places_and_buffers,
}
