//! The linear check against the naive one.

use std::collections::BTreeMap;

use ovenknit_host::compare::{junk_tables, Histogram};
use ovenknit_host::model::layout::{self, AnodeTable, ANODES, BLOCK};
use ovenknit_host::model::{self, naive};
use ovenknit_host::rng::{seeded, Rng};
use ovenknit_host::shapes::{accepted, formatted, random_bytes, shaped, Damager, Mixed, Place, Recipe};

/// Runs both checks with the same junk in the tables, compares all that they leave, and answers their number.
fn compare_checks(image: &[u8], blocks: Vec<u16>, anodes: Vec<u16>) -> u32 {
    let (mut naive_blocks, mut naive_anodes) = (blocks.clone(), anodes.clone());
    let (mut linear_blocks, mut linear_anodes) = (blocks, anodes);
    let linear = model::check(image, &mut linear_blocks, &mut linear_anodes);
    let naive = naive::check(image, &mut naive_blocks, &mut naive_anodes);
    assert_eq!(linear, naive, "the two checks answer differently");
    assert_eq!(linear_blocks, naive_blocks, "block tables differ after {linear}");
    assert_eq!(linear_anodes, naive_anodes, "anode tables differ after {linear}");
    linear
}

pub fn compare_with_junk(image: &[u8], rng: &mut Rng) -> u32 {
    let (blocks, anodes) = junk_tables(image.len() / BLOCK, false, rng);
    let number = compare_checks(image, blocks, anodes);
    // Every fault has a place, and a disk without one has none.
    let show = |names: &[Vec<u8>]| format!("{names:?}");
    let located = model::locate(image, &show);
    assert_eq!(located.as_ref().map_or(0, |(number, _)| *number), number);
    assert!(located.is_none_or(|(_, place)| place != "no place is known"), "{number} has no place");
    number
}

/// Damages an accepted image in all ways; each aimed fault must give its number.
fn compare_bent(image: &[u8], histogram: &mut Histogram, rng: &mut Rng) {
    let damager = Damager::new(image).expect("the image is accepted");
    for number in (1..=17).filter(|&number| number != 2) {
        if let Some(damaged) = damager.damage(number, rng) {
            let answer = compare_with_junk(&damaged, rng);
            assert_eq!(answer, number, "a fault missed its aim");
            histogram.add(answer, "check");
        }
    }
    for number in 6..=17 {
        if let Some(damaged) = damager.damage_and_half_clear(number, rng) {
            let answer = compare_with_junk(&damaged, rng);
            assert_eq!(answer, number.min(7), "the first fault was aimed at {number}");
            histogram.add(answer, "check");
        }
    }
    for _ in 0..3 {
        histogram.add(compare_with_junk(&damager.with_random_bytes(rng), rng), "check");
        histogram.add(compare_with_junk(&damager.with_misplaced_numbers(rng), rng), "check");
    }
    let (blocks, anodes) = junk_tables(image.len() / BLOCK, true, rng);
    let answer = compare_checks(image, blocks, anodes);
    assert_eq!(answer, 2);
    histogram.add(answer, "check");
}

#[test]
fn linear_check_equals_naive_check() {
    let mut histogram = Histogram::default();
    for mut case in seeded("linear_check_equals_naive_check", 0..1_000) {
        let rng = &mut case.rng;
        let image = accepted(600, rng);
        let answer = compare_with_junk(&image, rng);
        assert_eq!(answer, 0, "a formatted or shaped disk is refused");
        histogram.add(answer, "check");
        compare_bent(&image, &mut histogram, rng);
    }
    histogram.print("linear and naive check");
    histogram.assert_answered(0..=17);
}

/// Two names of a directory that look alike beside every other fault: which of the two the walk meets first answers. Names
/// that look alike in two directories, or only nearly, are no fault.
#[test]
fn names_that_look_alike_beside_other_faults() {
    let mut met: BTreeMap<(u32, Place, u32), usize> = BTreeMap::new();
    let mut accepted_names = [0; 2];
    for mut case in seeded("names_that_look_alike_beside_other_faults", 0..1_000) {
        let rng = &mut case.rng;
        let image = accepted(600, rng);
        let damager = Damager::new(&image).expect("the image is accepted");
        for number in (3..=16).flat_map(|number| vec![number; if number < 12 { 1 } else { 4 }]) {
            if let Some(Mixed { image, place, answer }) = damager.damage_and_alike(number, rng) {
                assert_eq!(compare_with_junk(&image, rng), answer, "{number}, {place:?}");
                *met.entry((number, place, answer)).or_default() += 1;
            }
        }
        for (made, met) in
            [damager.alike_elsewhere(rng), damager.nearly_alike(rng)].iter().zip(&mut accepted_names)
        {
            if let Some(image) = made {
                assert_eq!(compare_with_junk(image, rng), 0);
                *met += 1;
            }
        }
    }
    println!("alike in two directories and nearly alike: {accepted_names:?}");
    for ((number, place, answer), count) in &met {
        println!("{count:5} {number} {place:?}: {answer}");
    }
    let mut cases: Vec<(u32, Place, u32)> = (3..=15).map(|number| (number, Place::Before, number)).collect();
    cases.extend([12, 13, 14, 15].map(|number| (number, Place::There, if number == 12 { 12 } else { 17 })));
    cases.extend([12, 13, 14, 15, 16].map(|number| (number, Place::Behind, 17)));
    cases.sort();
    assert_eq!(met.keys().copied().collect::<Vec<_>>(), cases, "these were met, and no others");
    assert!(accepted_names.iter().all(|&count| count > 0));
}

#[test]
fn linear_check_equals_naive_check_with_full_slots() {
    for mut case in seeded("linear_check_equals_naive_check_with_full_slots", 0..3) {
        let rng = &mut case.rng;
        let recipe = Recipe { cuts: 200 * case.seed as usize, ..Recipe::fragmented(900) };
        let image = shaped(&recipe, rng).image;
        let table = AnodeTable::read(&image);
        assert!((0..ANODES as u16).filter(|&number| number != 3 && number != 4).all(|a| table.in_use(a)));
        assert_eq!(compare_with_junk(&image, rng), 0);
    }
}

#[test]
fn checks_agree_on_random_bytes() {
    let mut histogram = Histogram::default();
    for mut case in seeded("checks_agree_on_random_bytes", 0..2_000) {
        let rng = &mut case.rng;
        let image = random_bytes(rng);
        histogram.add(compare_with_junk(&image, rng), "check");
    }
    histogram.print("random bytes");
    histogram.assert_answered([1, 3, 4, 5]);
}

#[test]
fn large_disks_are_accepted_and_too_large_ones_refused() {
    let rng = &mut Rng::new(1);
    let (mut blocks, mut anodes) = (vec![7; 65_540], vec![7; ANODES + 5]);
    for blocks_on_disk in [65_535, 65_534, 40_001] {
        let image = formatted(blocks_on_disk, rng);
        assert_eq!(model::check(&image, &mut blocks, &mut anodes), 0);
        assert_eq!(blocks[65_535..], [7; 5]);
        assert_eq!(anodes[ANODES..], [7; 5]);
    }
    // Anode blocks far up, whose numbers would be negative in sixteen signed bits.
    let recipe = Recipe { slots: 12, files: 5, directories: 3, cuts: 10, ..Recipe::fragmented(65_535) };
    let image = shaped(&recipe, rng).image;
    assert!(layout::slots(&image).iter().any(|&number| number > 32_767));
    assert_eq!(compare_with_junk(&image, rng), 0);
    let mut image = formatted(65_535, rng);
    image.resize(65_536 * BLOCK, 0);
    blocks.fill(9);
    assert_eq!(compare_checks(&image, blocks, anodes), 1);
}
