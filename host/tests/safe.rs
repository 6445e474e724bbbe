//! The proved safe changes against the model, on every kind of disk and with buffers of any length, and cut off after every
//! block write: what is left is accepted, and holds the old tree until the root is written, and the new tree from then on.

use ovenknit_host::calls::{
    run, tables, Call, Library, Stamp, BLOCK, BLOCK_WRITE, DIRECTORY, FILE, ROOT, UNREAD,
};
use ovenknit_host::compare::{compare, junk_tables, totals, Histogram, History};
use ovenknit_host::cuts::{assert_cut, assert_cuts, assert_holds, assert_list, list_length, writes_of};
use ovenknit_host::disk::{Disk, Error, Format, Kind, New};
use ovenknit_host::ffi::Proved;
use ovenknit_host::histories::{follow, random_safe_call, Trend};
use ovenknit_host::met::{SAFE_DONE, SAFE_REFUSALS};
use ovenknit_host::model::Model;
use ovenknit_host::rng::{seeded, Rng};
use ovenknit_host::safe::Writes;
use ovenknit_host::shapes::{random_bytes, shaped, Damager, Recipe, Shaped};
use ovenknit_host::starts::Start;

/// Where the histories start: half of them with blocks to spare.
const STARTS: [Start; 8] = [
    Start::Roomy,
    Start::Formatted,
    Start::Roomy,
    Start::Shaped,
    Start::Roomy,
    Start::FewAnodes,
    Start::FullBlocks,
    Start::FullSlots,
];

#[test]
fn histories_equal_the_model() {
    let mut answers = Histogram::default();
    for mut case in seeded("histories_equal_the_model", 0..800) {
        let rng = &mut case.rng;
        let disk = STARTS[case.seed as usize % STARTS.len()].disk(rng);
        let mut history = History::new(disk, rng);
        history.run_safely::<Proved>(40);
        answers.merge(&history.answers);
    }
    answers.print("histories with safe changes");
    answers.assert_answered([0, 2]);
    answers.assert_met(&SAFE_DONE);
    answers.assert_met(&SAFE_REFUSALS);
}

/// Single changes of every entry, on disks with few blocks and few anodes.
#[test]
fn every_change_equals_the_model() {
    let mut answers = Histogram::default();
    for (start, seeds) in
        [(Start::FewAnodes, 200), (Start::FullSlots, 60), (Start::FullBlocks, 100), (Start::Roomy, 200)]
    {
        for mut case in seeded("every_change_equals_the_model", 0..seeds) {
            let rng = &mut case.rng;
            let mut history = History::new(start.disk(rng), rng);
            history.make_each_safely::<Proved>();
            answers.merge(&history.answers);
        }
    }
    answers.print("every safe change");
    let safe = ["safe_make", "safe_resize", "safe_remove"];
    for number in [0, 27, 28, 32] {
        answers.assert_met(&safe.map(|call| (number, call)));
    }
}

#[test]
fn large_disks_equal_the_model() {
    let mut answers = Histogram::default();
    for mut case in seeded("large_disks_equal_the_model", 0..8) {
        let rng = &mut case.rng;
        let start = if case.seed < 4 { Start::Largest } else { Start::Larger };
        let mut history = History::new(start.disk(rng), rng);
        history.run_safely::<Proved>(12);
        answers.merge(&history.answers);
    }
    answers.print("large disks");
    answers.assert_answered([0]);
}

/// Every safe call on disks that are damaged, or no disks: the check's number, and tables to match.
#[test]
fn every_safe_change_refuses_damage_like_the_model() {
    let mut answers = Histogram::default();
    for mut case in seeded("every_safe_change_refuses_damage_like_the_model", 0..400) {
        let rng = &mut case.rng;
        let Shaped { image, tree } = STARTS[case.seed as usize % STARTS.len()].disk(rng);
        let damager = Damager::new(&image).expect("the model accepts its own shapes");
        for number in 1..=17 {
            let damaged = match rng.percent(5) {
                true => Some(random_bytes(rng)),
                false => damager.damage(number, rng),
            };
            let Some(mut damaged) = damaged else {
                continue;
            };
            let free = totals(&image, &tree).free;
            let call = random_safe_call(&image, &tree, Trend::random(rng), free, rng);
            let call = call.with_room(rng.below(40) * BLOCK_WRITE);
            let short = rng.percent(5) && damaged.len() >= BLOCK;
            let (mut blocks, mut anodes) = junk_tables(damaged.len() / BLOCK, short, rng);
            let outcome = compare::<Proved>(&call, &mut damaged, &mut blocks, &mut anodes);
            assert_eq!(outcome.output.count, [0], "a refused change counts no write");
            answers.add(outcome.answer, call.label());
        }
    }
    answers.print("damaged disks");
    answers.assert_answered(1..=17);
    for number in [7, 12, 17] {
        answers.assert_met(
            &["safe_make", "safe_resize", "safe_write", "safe_remove"].map(|call| (number, call)),
        );
    }
}

/// Runs a safe change on both libraries with a buffer that just holds the list, and gives the list if it is done.
fn done(image: &mut [u8], call: &Call) -> Option<Writes> {
    let call = call.with_room(list_length(call, image));
    let (mut blocks, mut anodes) = tables(image);
    let outcome = compare::<Proved>(&call, image, &mut blocks, &mut anodes);
    (outcome.answer == 0).then(|| writes_of(&outcome))
}

/// Random changes one after the other, each of which is cut off everywhere.
#[test]
fn a_change_that_is_cut_off_leaves_a_sound_disk() {
    let (mut cuts, mut changes) = (0, Histogram::default());
    for mut case in seeded("a_change_that_is_cut_off_leaves_a_sound_disk", 0..240) {
        let rng = &mut case.rng;
        let mut disk = STARTS[case.seed as usize % STARTS.len()].disk(rng);
        let mut trend = Trend::random(rng);
        for _ in 0..20 {
            trend = trend.next(rng);
            let before = disk.image.clone();
            let free = totals(&before, &disk.tree).free;
            let call = random_safe_call(&before, &disk.tree, trend, free, rng);
            let Some(writes) = done(&mut disk.image, &call) else {
                continue;
            };
            assert_list(&before, &disk.image, &writes);
            assert_cuts::<Proved>(&before, &disk.image, &writes);
            follow(&mut disk.tree, &call, &disk.image);
            assert_holds::<Proved>(&disk.image, &disk.tree);
            cuts += writes.len() + 1;
            changes.add(0, call.label());
        }
    }
    changes.print("cut off everywhere");
    println!("{cuts} cuts");
    changes.assert_met(&SAFE_DONE);
    assert!(cuts > 5_000, "{cuts} cuts");
}

/// A change of every kind on a disk where each is done, cut off everywhere; the file and the directory are in a directory of
/// their own, and one change needs a new block for its entry.
#[test]
fn a_change_of_every_kind_is_cut_off() {
    let (directory, stamp, room) = (ROOT, Stamp::new(17_000, 600, 0), 0);
    let make = |directory, kind, name: &[u8]| {
        let (name, comment) = (name.to_vec(), b"white bread".to_vec());
        Call::SafeMake { directory, kind, name, comment, stamp, protection: 1, room }
    };
    let mut disk = Disk::<Model>::format(200, &Format::new(40, 3, b"bench 4")).expect("it is formatted");
    disk.make(ROOT, &New::directory(b"recipes")).expect("there is room");
    let recipes = disk.find(ROOT, b"recipes").expect("it was made").anode;
    disk.make(recipes, &New::directory(b"old")).expect("there is room");
    disk.root().store(&New::file(b"pack7"), &[7; 9_000]).expect("there is room");
    for number in 0..24 {
        disk.make(ROOT, &New::file(format!("f{number:02}").as_bytes())).expect("there is room");
    }
    let (name, file) = (b"pack7".to_vec(), b"f00".to_vec());
    let resize = |size| Call::SafeResize { directory, name: name.clone(), size, room };
    let write = |offset, data: Vec<u8>| Call::SafeWrite { directory, name: name.clone(), offset, data, room };
    let calls = [
        (make(ROOT, FILE, b"a file that needs a block for its entry"), 1 + 3 + 1),
        (make(ROOT, DIRECTORY, b"a directory that needs one"), 2 + 3 + 1),
        (make(recipes, FILE, b"pack8"), 1 + 3 + 1),
        (make(recipes, DIRECTORY, b"new"), 2 + 3 + 1),
        (resize(0), 1 + 3 + 1),
        (resize(9_000), 18 + 3 + 1),
        (resize(9_001), 18 + 1 + 3 + 1),
        (resize(20_000), 40 + 1 + 3 + 1),
        (resize(700), 2 + 1 + 3 + 1),
        (Call::SafeResize { directory, name: file.clone(), size: 1, room }, 1 + 1 + 3 + 1),
        (write(0, vec![8; 9_000]), 18 + 3 + 1),
        (write(500, vec![8; 30]), 18 + 3 + 1),
        (write(9_000, Vec::new()), 18 + 3 + 1),
        (Call::SafeRemove { directory, name: name.clone(), room }, 1 + 3 + 1),
        (Call::SafeRemove { directory, name: file, room }, 1 + 3 + 1),
        (Call::SafeRemove { directory: recipes, name: b"OLD".to_vec(), room }, 1 + 3 + 1),
    ];
    for (call, count) in calls {
        let mut image = disk.image().to_vec();
        let writes = done(&mut image, &call).expect("it is done");
        assert_eq!(writes.len(), count, "{call:?}");
        assert_list(disk.image(), &image, &writes);
        assert_cuts::<Proved>(disk.image(), &image, &writes);
    }
}

/// A file of 20,000 blocks on the largest disk is written anew; cut off at some places, and at the last ones.
#[test]
fn a_long_list_is_cut_off() {
    let mut disk = Disk::<Model>::format(65_535, &Format::new(2_000, 42, b"disk")).expect("it is formatted");
    let size = 20_000 * BLOCK;
    disk.root().store(&New::file(b"long"), &vec![7; size]).expect("there is room");
    let before = disk.into_image();
    let mut after = before.clone();
    let (directory, name, data, room) = (ROOT, b"long".to_vec(), vec![8; size - 1], 0);
    let writes = done(&mut after, &Call::SafeWrite { directory, name, offset: 1, data, room });
    let writes = writes.expect("there is room");
    assert_eq!(writes.len(), 20_000 + 42 + 1);
    assert_list(&before, &after, &writes);
    for count in [0, 1, 9_999, 20_000, 20_001, 20_041, 20_042, 20_043] {
        assert_cut::<Proved>(&before, &after, &writes, count);
    }
}

/// A list that just fits is done, one that lacks a byte is refused with 32, and neither touches a byte past the list.
#[test]
fn buffers_of_every_length() {
    let disk = Disk::<Model>::format(20, &Format::new(9, 1, b"disk")).expect("it is formatted");
    let (name, comment, stamp) = (b"f".to_vec(), Vec::new(), Stamp::default());
    let make = Call::Make { directory: ROOT, kind: FILE, name, comment, stamp, protection: 0 };
    for room in 0..=3 * BLOCK_WRITE + 3 {
        let call = make.safely(room).expect("make has a safe call");
        let mut image = disk.image().to_vec();
        let (mut blocks, mut anodes) = tables(&image);
        let outcome = compare::<Proved>(&call, &mut image, &mut blocks, &mut anodes);
        let fits = room >= 3 * BLOCK_WRITE;
        assert_eq!((outcome.answer, outcome.output.count[0]), if fits { (0, 3) } else { (32, 0) });
        assert_eq!(image != disk.image(), fits);
        let past = outcome.output.count[0] as usize * BLOCK_WRITE;
        assert!(outcome.output.writes[past..].iter().all(|&byte| byte == UNREAD));
    }
}

/// The safe wrapper says the same on both libraries, and never lends too little.
#[test]
fn the_wrapper_says_the_same() {
    let mut done = 0;
    for mut case in seeded("the_wrapper_says_the_same", 0..120) {
        let rng = &mut case.rng;
        let Shaped { image, tree } = shaped(&Recipe::random(60 + rng.below(200), rng), rng);
        let free = totals(&image, &tree).free;
        let call = random_safe_call(&image, &tree, Trend::random(rng), free, rng);
        let (mut by_proved, mut by_model) = (Disk::<Proved>::new(image.clone()), Disk::<Model>::new(image));
        let [one, other] = [wrapped(&mut by_proved, &call), wrapped(&mut by_model, &call)];
        assert_eq!(one, other, "{call:?}");
        assert_ne!(one, Err(Error::WritesSize), "{call:?}");
        assert!(by_proved.image() == by_model.image());
        done += usize::from(one.is_ok());
    }
    assert!(done > 10, "{done} were done");
}

/// A safe call by the method of the wrapper. An entry's type is never wrong there.
fn wrapped<L: Library>(disk: &mut Disk<L>, call: &Call) -> Result<Writes, Error> {
    match call {
        Call::SafeMake { directory, kind, name, comment, stamp, protection, .. } => {
            let kind = Kind::of(*kind);
            let (stamp, protection) = (*stamp, *protection);
            disk.safe_make(*directory, &New { kind, name, comment, stamp, protection })
        }
        Call::SafeResize { directory, name, size, .. } => disk.safe_resize(*directory, name, *size),
        Call::SafeWrite { directory, name, offset, data, .. } => {
            disk.safe_write(*directory, name, *offset, data)
        }
        Call::SafeRemove { directory, name, .. } => disk.safe_remove(*directory, name),
        _ => Err(Error::Unknown(0)),
    }
}

/// The same seeds give the same lists, whatever stands in the tables and behind the buffer.
#[test]
fn the_list_depends_on_the_image_alone() {
    let mut met = 0;
    for mut case in seeded("the_list_depends_on_the_image_alone", 0..100) {
        let rng = &mut case.rng;
        let Shaped { image, tree } = Start::Roomy.disk(rng);
        let free = totals(&image, &tree).free;
        let call = random_safe_call(&image, &tree, Trend::random(rng), free, rng);
        let lists: Vec<(u32, Writes)> = (0..3)
            .map(|turn| {
                let roomy = call.with_room(list_length(&call, &image) + turn * 100);
                let (mut blocks, mut anodes) =
                    junk_tables(image.len() / BLOCK, false, &mut Rng::new(turn as u64));
                let outcome = run::<Proved>(&roomy, &mut image.clone(), &mut blocks, &mut anodes);
                (outcome.answer, writes_of(&outcome))
            })
            .collect();
        assert!(lists.iter().all(|list| *list == lists[0]), "{call:?}");
        met += usize::from(lists[0].0 == 0);
    }
    assert!(met > 10, "{met} were done");
}
