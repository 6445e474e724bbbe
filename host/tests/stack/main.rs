//! Every call gets along with the stack that it is said to need, and the pages say the same.

mod painted;
mod threads;

use ovenknit_host::calls::{tables, Call, Library, Stamp, BLOCK, DIRECTORY, FILE, ROOT, TOTALS};
use ovenknit_host::compare::{compare, History};
use ovenknit_host::cuts::list_length;
use ovenknit_host::differences::Comparer;
use ovenknit_host::disk::Disk;
use ovenknit_host::histories::every_change;
use ovenknit_host::met::{worked_out, GrowthMet};
use ovenknit_host::model::Model;
use ovenknit_host::pairs::{Pair, Side, Twin};
use ovenknit_host::rng::Rng;
use ovenknit_host::settings::{Conversion, Converter, Form, Setting, MOST_RECORDS};
use ovenknit_host::shapes::{formatted, shaped, Recipe, Shaped};
use ovenknit_host::stack::{needed, NEEDED};
use ovenknit_host::starts::Start;

use painted::Painted;
use threads::Threads;

/// Every call on a disk with blocks and anodes to spare, where a file can have this size. All of them are done.
fn run_every_call<L: Library>(mut image: Vec<u8>, size: u64) {
    let (mut blocks, mut anodes) = tables(&image);
    let (directory, stamp) = (ROOT, Stamp::new(17_000, 600, 0));
    let bitmap = Disk::<Model>::new(image.clone()).bitmap().expect("the disk is sound");
    let (file, other) = (b"pack8".to_vec(), b"line3".to_vec());
    let make = |kind, name: &Vec<u8>| {
        let (name, comment) = (name.clone(), b"white bread".to_vec());
        Call::Make { directory, kind, name, comment, stamp, protection: 0 }
    };
    for call in [
        Call::Check,
        make(FILE, &file),
        make(DIRECTORY, &other),
        Call::Resize { directory, name: file.clone(), size },
        Call::Write { directory, name: file.clone(), offset: 100, data: vec![7; 4_000] },
        Call::Read { directory, name: file.clone(), offset: 50, length: 4_500 },
        Call::List { directory, place: 1 },
        Call::Find { directory, name: file.clone() },
        Call::Label,
        Call::Summary,
        Call::Bitmap { length: bitmap.len() },
        Call::BitmapDiffers { bitmap },
        Call::Report { totals: [0; TOTALS] },
        Call::Resize { directory, name: file.clone(), size: 700 },
        Call::Resize { directory, name: file.clone(), size },
        Call::Remove { directory, name: file },
        Call::Remove { directory, name: other },
        Call::Format { last_reserved: 20, anode_blocks: 1, name: b"disk".to_vec(), stamp, protection: 0 },
    ] {
        let outcome = compare::<L>(&call, &mut image, &mut blocks, &mut anodes);
        assert_eq!(outcome.answer, 0, "{call:?}");
    }
}

/// Every safe call on such a disk, with a buffer that just holds the list. All of them are done.
fn run_every_safe_call<L: Library>(mut image: Vec<u8>) {
    let (mut blocks, mut anodes) = tables(&image);
    let (directory, stamp) = (ROOT, Stamp::new(17_000, 600, 0));
    let (file, other) = (b"pack8".to_vec(), b"line3".to_vec());
    let make = |kind, name: &Vec<u8>| {
        let (name, comment) = (name.clone(), b"white bread".to_vec());
        Call::Make { directory, kind, name, comment, stamp, protection: 0 }
    };
    for change in [
        make(FILE, &file),
        make(DIRECTORY, &other),
        Call::Resize { directory, name: file.clone(), size: 2_000 },
        Call::Write { directory, name: file.clone(), offset: 100, data: vec![7; 1_500] },
        Call::Resize { directory, name: file.clone(), size: 700 },
        Call::Remove { directory, name: file },
        Call::Remove { directory, name: other },
    ] {
        let call = change.safely(0).expect("every change has a safe call");
        let call = call.with_room(list_length(&call, &image));
        let outcome = compare::<L>(&call, &mut image, &mut blocks, &mut anodes);
        assert_eq!(outcome.answer, 0, "{call:?}");
    }
}

/// Changes of every kind for which the anode table grows.
fn run_growth<L: Library>(rng: &mut Rng) {
    let mut met = GrowthMet::default();
    for _ in 0..150 {
        let Shaped { image, tree } = Start::FewAnodes.disk(rng);
        let (mut blocks, mut anodes) = tables(&image);
        for call in every_change(&tree) {
            if worked_out(&image, &tree, &call).is_some_and(|outcome| !outcome.growths.is_empty()) {
                met.note(&image, &tree, &call);
                compare::<L>(&call, &mut image.clone(), &mut blocks, &mut anodes);
            }
        }
    }
    met.assert_met(&["make: grew, done", "resize: grew, done", "remove: grew, done"]);
}

/// Comparisons of disks of every kind: small pairs, large ones with many differences, and damaged ones.
fn run_comparisons<C: Comparer>(rng: &mut Rng) {
    for start in Start::SMALL {
        let first = start.disk(rng);
        for twin in Twin::ALL {
            let second = twin.of(&first, rng);
            Pair::new(first.image.clone(), second.image).both_ways::<C>(rng).expect("both are accepted");
        }
        let short = Side::with_junk(first.image.clone(), true, rng);
        assert_eq!(Pair { first: Side::new(first.image), second: short }.all::<C>(rng), Err((2, 2)));
    }
    let [full, other, pieces] =
        [Recipe::small_files(65_535), Recipe::many_names(65_535), Recipe::fragmented(65_535)]
            .map(|recipe| shaped(&recipe, rng).image);
    for (first, second) in [(&full, &full), (&full, &other), (&other, &pieces), (&pieces, &full)] {
        Pair::new(first.clone(), second.clone()).all::<C>(rng).expect("both are accepted");
    }
}

/// Both conversions of a file with as many records as one may have, into buffers that just hold the result.
fn run_conversions<C: Converter>() {
    let records =
        |form| (0..MOST_RECORDS as u16).flat_map(move |key| Setting { key, seconds: 65_535 }.bytes(form));
    let (old, new): (Vec<u8>, Vec<u8>) = (records(Form::OLD).collect(), records(Form::NEW).collect());
    for (conversion, file, result) in [(Conversion::Widen, &old, &new), (Conversion::Narrow, &new, &old)] {
        let (mut out, mut fields) = (vec![0; result.len()], [0; 2]);
        assert_eq!(C::answer(conversion, file, &mut out, &mut fields), 0);
        assert_eq!((&out, fields), (result, [result.len() as u32, 0]));
    }
}

/// Every call on small and on large disks, empty, full of files and in many pieces; then changes for which the anode table
/// grows, random calls, which are refused at times, and pairs of disks. Each is compared with the model.
fn run_calls<L: Library + Converter + Comparer>() {
    let rng = &mut Rng::new(1);
    let files = Recipe { files: 2_800, cuts: 2_800, free_percent: 10, ..Recipe::small_files(65_535) };
    let pieces = Recipe { cuts: 2_000, empties: 300, ..Recipe::fragmented(65_535) };
    for (image, size) in [
        (include_bytes!("../../../crates/pfsinfo_files/stdin").to_vec(), 5_000),
        (formatted(1_760, rng), 5_000),
        (formatted(65_535, rng), 65_400 * BLOCK as u64),
        (shaped(&files, rng).image, 50_000),
        (shaped(&pieces, rng).image, 50_000),
    ] {
        run_every_safe_call::<L>(image.clone());
        run_every_call::<L>(image, size);
    }

    run_conversions::<L>();
    run_growth::<L>(rng);
    run_comparisons::<L>(rng);
    for start in Start::SMALL {
        History::new(start.disk(rng), rng).run::<L>(100);
        History::new(Start::Roomy.disk(rng), rng).run_safely::<L>(60);
    }
    History::new(Start::Largest.disk(rng), rng).run::<L>(12);
}

#[test]
fn every_call_runs_in_a_thread_of_its_size() {
    run_calls::<Threads>();
}

#[test]
fn no_call_uses_more_than_it_is_said_to_need() {
    run_calls::<Painted>();
    println!("stack used by a thread without a call: {} bytes", Painted::used_by_thread());
    let used = Painted::used();
    for (label, kib) in NEEDED {
        println!("stack used by a thread for {label}: {} bytes of {kib} KiB", used[label]);
        assert!(used[label] <= needed(label), "{label}");
    }
    assert_eq!(used.len(), NEEDED.len());
}

/// The sizes in words: for each size its calls.
fn in_words() -> String {
    let group = |sizes: &[(&str, usize)]| {
        let labels: Vec<&str> = sizes.iter().map(|size| size.0).collect();
        let (last, others) = labels.split_last().expect("no group is empty");
        let others = if others.is_empty() { String::new() } else { others.join(", ") + " and " };
        format!("{} KiB for {others}{last}", sizes[0].1)
    };
    let groups: Vec<String> = NEEDED.chunk_by(|a, b| a.1 == b.1).map(group).collect();
    groups.join("; ")
}

#[test]
fn the_pages_say_the_sizes() {
    for (page, text) in [
        ("README.md", include_str!("../../../README.md")),
        ("docs/READING.md", include_str!("../../../docs/READING.md")),
        ("docs/DECISIONS.md", include_str!("../../../docs/DECISIONS.md")),
    ] {
        assert!(text.contains(&in_words()), "{page} does not say: {}", in_words());
    }
    let header = include_str!("../../../include/pfs.h");
    for sizes in NEEDED.chunk_by(|a, b| a.1 == b.1) {
        let calls: Vec<String> = sizes.iter().map(|size| format!("pfs_{}", size.0)).collect();
        let line = format!(" *   {:3} KiB  {}\n", sizes[0].1, calls.join(", "));
        assert!(header.contains(&line), "the header does not say: {line}");
    }
}
