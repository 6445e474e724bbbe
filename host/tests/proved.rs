//! The proved library against the model, call by call: the same image, arguments and junk in the tables must give the
//! same answer and output, and leave the same image and tables to the last entry.

use std::collections::{BTreeMap, BTreeSet};
use std::env;

use ovenknit_host::calls::{tables, Call, Stamp, BLOCK, FILE, ROOT};
use ovenknit_host::compare::{compare, junk_tables, Histogram, History};
use ovenknit_host::ffi::Proved;
use ovenknit_host::histories::{random_call, Trend};
use ovenknit_host::met::{GrowthMet, Met, NamesMet, NO_ANODE, REFUSALS};
use ovenknit_host::model::layout::slots;
use ovenknit_host::rng::{seeded, Rng};
use ovenknit_host::shapes::{
    accepted, formatted, grown_in_turn, one_free_anode, random_bytes, shaped, Damager, Mixed, Place, Recipe,
    Shaped, LONG_FILE,
};
use ovenknit_host::starts::Start;

/// One image with junk in the tables, checked by both libraries. One case in some twenty has a table too short.
fn compare_case(image: &mut [u8], cases: &mut Histogram, rng: &mut Rng) -> u32 {
    let call = if rng.percent(50) { Call::Check } else { Call::Summary };
    let short = rng.percent(5) && image.len() >= BLOCK;
    let (mut blocks, mut anodes) = junk_tables(image.len() / BLOCK, short, rng);
    let answer = compare::<Proved>(&call, image, &mut blocks, &mut anodes).answer;
    cases.add(answer, call.label());
    answer
}

/// An accepted disk as it is and damaged in all ways.
fn compare_disk(image: &mut [u8], turns: usize, cases: &mut Histogram, rng: &mut Rng) {
    compare_case(image, cases, rng);
    let damager = Damager::new(image).expect("the model accepts its own shapes");
    for number in 6..=17 {
        if let Some(mut damaged) = damager.damage_and_half_clear(number, rng) {
            let answer = compare_case(&mut damaged, cases, rng);
            assert!(answer == number.min(7) || answer == 2, "{answer} where {number} was aimed at first");
        }
    }
    for _ in 0..turns {
        for number in 1..=17 {
            if let Some(mut damaged) = damager.damage(number, rng) {
                let answer = compare_case(&mut damaged, cases, rng);
                assert!(answer == number || answer == 2, "{answer} where {number} was aimed at");
            }
        }
        for _ in 0..6 {
            compare_case(&mut damager.with_random_bytes(rng), cases, rng);
            compare_case(&mut damager.with_misplaced_numbers(rng), cases, rng);
        }
    }
}

#[test]
fn check_and_summary_equal_the_model() {
    let mut cases = Histogram::default();
    for mut case in seeded("check_and_summary_equal_the_model", 0..2_000) {
        let rng = &mut case.rng;
        let mut image = accepted(600, rng);
        compare_disk(&mut image, 2, &mut cases, rng);
        for _ in 0..6 {
            compare_case(&mut random_bytes(rng), &mut cases, rng);
        }
    }
    cases.print("check and summary");
    assert!(cases.total() >= 100_000);
    cases.assert_answered(0..=17);
}

#[test]
fn check_and_summary_equal_the_model_on_large_disks() {
    let mut cases = Histogram::default();
    let rng = &mut Rng::new(65_535);
    for mut image in [
        formatted(65_535, rng),
        shaped(&Recipe::small_files(65_535), rng).image,
        shaped(&Recipe::fragmented(65_535), rng).image,
    ] {
        compare_disk(&mut image, 2, &mut cases, rng);
    }
    let mut image = formatted(65_535, rng);
    image.resize(65_536 * BLOCK, 0);
    assert!([1, 2].contains(&compare_case(&mut image, &mut cases, rng)));
    cases.print("check and summary on large disks");
    cases.assert_answered([0, 7]);
}

/// Two names of a directory that look alike, alone and beside every other fault, and names that look alike where that is no
/// fault.
#[test]
fn names_that_look_alike_equal_the_model() {
    let mut cases = Histogram::default();
    let mut met: BTreeMap<(u32, Place), usize> = BTreeMap::new();
    for mut case in seeded("names_that_look_alike_equal_the_model", 0..1_500) {
        let rng = &mut case.rng;
        let image = accepted(600, rng);
        let damager = Damager::new(&image).expect("the model accepts its own shapes");
        for number in (3..=16).flat_map(|number| vec![number; if number < 12 { 1 } else { 4 }]) {
            if let Some(Mixed { mut image, place, answer }) = damager.damage_and_alike(number, rng) {
                let given = compare_case(&mut image, &mut cases, rng);
                assert!(given == answer || given == 2, "{given} for {number}, {place:?}");
                *met.entry((number, place)).or_default() += 1;
            }
        }
        for mut image in [damager.alike_elsewhere(rng), damager.nearly_alike(rng)].into_iter().flatten() {
            assert!([0, 2].contains(&compare_case(&mut image, &mut cases, rng)));
        }
    }
    cases.print("names that look alike");
    println!("{met:?}");
    cases.assert_answered((0..=17).filter(|number| ![1, 16].contains(number)));
    let beside = (12..=15)
        .flat_map(|number| [Place::Before, Place::There, Place::Behind].map(|place| (number, place)));
    assert!(beside.chain([(16, Place::Behind)]).all(|case| met.contains_key(&case)), "{met:?}");
}

/// Runs histories of random calls on both libraries until so many calls are made, seed after seed.
fn compare_histories(first_seed: u64, calls: usize) -> (Histogram, NamesMet) {
    let (mut answers, mut names) = (Histogram::default(), NamesMet::default());
    let mut sizes = BTreeSet::new();
    for mut case in seeded("compare_histories", first_seed..) {
        let rng = &mut case.rng;
        // A call on a large disk takes long, so there are few of them.
        let (start, calls_here) = match case.seed % 100 {
            0 => (Start::Largest, 12),
            1..=3 => (Start::Larger, 60),
            other => (Start::SMALL[other as usize % Start::SMALL.len()], 100),
        };
        let disk = start.disk(rng);
        sizes.insert(disk.image.len() / BLOCK);
        let mut history = History::new(disk, rng);
        history.run::<Proved>(calls_here);
        answers.merge(&history.answers);
        names.merge(&history.names);
        if answers.total() >= calls {
            break;
        }
    }
    println!("disks of {} to {} blocks", sizes.first().unwrap_or(&0), sizes.last().unwrap_or(&0));
    assert!(sizes.contains(&5) && sizes.contains(&65_535));
    (answers, names)
}

fn number_of(variable: &str, default: u64) -> u64 {
    env::var(variable).map_or(default, |value| value.parse().expect("the variable is a number"))
}

/// The variables `PFS_CALLS` and `PFS_SEED` ask for more calls than 60,000 and for other ones.
#[test]
fn histories_equal_the_model() {
    let calls = number_of("PFS_CALLS", 0).max(60_000) as usize;
    let (answers, names) = compare_histories(number_of("PFS_SEED", 0), calls);
    answers.print("histories");
    names.print("histories");
    answers.assert_answered([0, 2]);
    answers.assert_met(&REFUSALS);
    answers.assert_met(&NO_ANODE);
    names.assert_all_met();
}

/// Short histories, and single changes of every entry, where runs go back every way that there is (02, No. 3), and the table
/// grows for every need (No. 6) or cannot.
#[test]
fn taking_and_giving_back_equal_the_model() {
    let mut answers = Histogram::default();
    let (mut met, mut growth) = (Met::default(), GrowthMet::default());
    for (start, seeds) in [(Start::FewAnodes, 1_000), (Start::FullSlots, 300)] {
        for mut case in seeded("taking_and_giving_back_equal_the_model", 0..seeds) {
            let rng = &mut case.rng;
            let mut history = History::new(start.disk(rng), rng);
            history.make_each::<Proved>();
            history.run::<Proved>(30);
            answers.merge(&history.answers);
            met.merge(&history.met);
            growth.merge(&history.growth);
        }
    }
    answers.print("short histories");
    met.print("short histories");
    growth.print("short histories");
    answers.assert_met(&NO_ANODE);
    met.assert_all_met();
    growth.assert_all_met();
}

/// The long file of the benchmark, shrunk inside an extent, at its end and over many, and removed.
#[test]
fn a_long_file_goes_back_like_the_model() {
    let mut image = grown_in_turn();
    let (directory, name) = (ROOT, LONG_FILE.to_vec());
    let mut calls: Vec<Call> = [61_990, 61_959, 61_918, 30_000, 200, 42, 7]
        .map(|blocks: u64| Call::Resize { directory, name: name.clone(), size: blocks * BLOCK as u64 })
        .to_vec();
    calls.push(Call::Remove { directory, name });
    let (mut blocks, mut anodes) = tables(&image);
    // Each from the start, then one after the other.
    for call in &calls {
        let outcome = compare::<Proved>(call, &mut image.clone(), &mut blocks, &mut anodes);
        assert_eq!(outcome.answer, 0, "{call:?}");
    }
    for call in &calls {
        assert_eq!(compare::<Proved>(call, &mut image, &mut blocks, &mut anodes).answer, 0, "{call:?}");
    }
}

/// The search for a free anode finds the last of all behind 40 empty slots, and then none, so that slot 1 grows.
#[test]
fn the_only_free_anode_is_found_like_the_model() {
    let mut image = one_free_anode();
    let (mut blocks, mut anodes) = tables(&image);
    for (name, head) in [(b"one", 3_443), (b"two", 82)] {
        let (name, comment, stamp) = (name.to_vec(), Vec::new(), Stamp::default());
        let call = Call::Make { directory: ROOT, kind: FILE, name, comment, stamp, protection: 0 };
        assert_eq!(slots(&image)[1], 0);
        assert_eq!(anodes[head], 0);
        assert_eq!(compare::<Proved>(&call, &mut image, &mut blocks, &mut anodes).answer, 0, "{call:?}");
        assert_eq!(usize::from(anodes[head]), head, "the new head");
    }
    assert_ne!(slots(&image)[1], 0);
}

/// Every call on images that are damaged or too small: the check's number, and tables to match.
#[test]
fn every_call_refuses_damage_like_the_model() {
    let mut answers = Histogram::default();
    for mut case in seeded("every_call_refuses_damage_like_the_model", 0..300) {
        let rng = &mut case.rng;
        let Shaped { image, tree } = Start::SMALL[rng.below(Start::SMALL.len())].disk(rng);
        let damager = Damager::new(&image).expect("the model accepts its own shapes");
        for number in 1..=17 {
            let Some(mut damaged) = damager.damage(number, rng) else {
                continue;
            };
            let call = random_call(&image, &tree, Trend::random(rng), 3, rng);
            let (mut blocks, mut anodes) = junk_tables(damaged.len() / BLOCK, false, rng);
            let answer = compare::<Proved>(&call, &mut damaged, &mut blocks, &mut anodes).answer;
            answers.add(answer, call.label());
        }
    }
    answers.print("damaged disks");
    answers.assert_answered((1..=17).filter(|&number| number != 2));
    for number in [7, 12, 17] {
        answers.assert_met(&["make", "resize", "remove", "write", "read", "list"].map(|call| (number, call)));
    }
}
