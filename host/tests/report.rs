//! The proved report against the model: disks fed in any order, made-up totals at the edges of 31, and 100,000 images.

use ovenknit_host::calls::{run, tables, Call, Outcome, BLOCK, ROOT, TOTALS, UNCOUNTED};
use ovenknit_host::compare::{compare, junk_tables, Histogram};
use ovenknit_host::disk::{Disk, Entry, Format, Kind};
use ovenknit_host::ffi::Proved;
use ovenknit_host::model::Model;
use ovenknit_host::report::Report;
use ovenknit_host::rng::{seeded, Rng};
use ovenknit_host::shapes::{random_bytes, Damager};
use ovenknit_host::starts::Start;

const EMPTY: [u64; TOTALS] = [0; TOTALS];
const MOST_IMAGES: u64 = 100_000;
const LARGEST_SUM: u64 = 10_000_000_000_000;

/// Feeds an image to totals on both libraries; the image stays.
fn feed(image: &[u8], totals: [u64; TOTALS], rng: &mut Rng) -> Outcome {
    let mut lent = image.to_vec();
    let short = rng.percent(3) && image.len() >= BLOCK;
    let (mut blocks, mut anodes) = junk_tables(image.len() / BLOCK, short, rng);
    let before = (blocks.clone(), anodes.clone());
    let outcome = compare::<Proved>(&Call::Report { totals }, &mut lent, &mut blocks, &mut anodes);
    assert_eq!(lent, image);
    if outcome.answer == 31 {
        assert_eq!((blocks, anodes), before);
        assert_eq!((outcome.output.totals, outcome.output.disk), (totals, [UNCOUNTED; 5]));
    }
    outcome
}

/// Accepted disks, damaged ones and no disks at all.
fn shift(rng: &mut Rng) -> Vec<Vec<u8>> {
    let mut images = Vec::new();
    for _ in 0..4 {
        let image = Start::SMALL[rng.below(4)].disk(rng).image;
        let damager = Damager::new(&image).expect("the model accepts its own shapes");
        images.extend((0..2).filter_map(|_| damager.damage(1 + rng.below(17) as u32, rng)));
        images.extend([image, random_bytes(rng)]);
    }
    images
}

/// Feeds images one after another. After each the totals are how many had each answer, and the sums over the accepted.
fn feed_all(images: &[Vec<u8>], answers: &mut Histogram, rng: &mut Rng) {
    let (mut totals, mut expected) = (EMPTY, EMPTY);
    for image in images {
        let outcome = feed(image, totals, rng);
        answers.add(outcome.answer, "report");
        expected[outcome.answer as usize] += 1;
        if outcome.answer == 0 {
            let mut disk = Disk::<Model>::new(image.clone());
            let summary = disk.summary().expect("it is accepted");
            let counts = [summary.free, summary.files, summary.directories].map(u64::from);
            assert_eq!(outcome.output.disk[..3], counts);
            for (sum, number) in expected[18..23].iter_mut().zip(outcome.output.disk) {
                *sum += number;
            }
            expected[23] += bytes(&mut disk, ROOT);
        } else {
            assert_eq!(outcome.output.disk, [0; 5]);
        }
        totals = outcome.output.totals;
        assert_eq!(totals, expected);
    }
}

/// The bytes of all files in a directory and below it.
fn bytes(disk: &mut Disk<Model>, directory: u16) -> u64 {
    let entries: Vec<Entry> = disk.list(directory).collect::<Result<_, _>>().expect("it is a directory");
    let sizes = entries.iter().map(|entry| match entry.kind {
        Kind::File => u64::from(entry.size),
        Kind::Directory => bytes(disk, entry.anode),
    });
    sizes.sum()
}

/// The same disks in other orders give the same totals.
#[test]
fn any_order_gives_the_same_totals() {
    let mut answers = Histogram::default();
    for mut case in seeded("any_order_gives_the_same_totals", 0..120) {
        let rng = &mut case.rng;
        let mut images = shift(rng);
        feed_all(&images, &mut answers, rng);
        let totals = |images: &[Vec<u8>]| {
            let mut report = Report::new();
            for image in images {
                // A refusal is in the totals.
                let _ = Disk::<Proved>::new(image.clone()).report(&mut report);
            }
            report
        };
        let first = totals(&images);
        let counted: u64 = first.accepted() + first.refused().map(|(_, count)| count).sum::<u64>();
        assert_eq!(counted, images.len() as u64);
        for _ in 0..4 {
            rng.shuffle(&mut images);
            assert_eq!(totals(&images), first);
        }
    }
    answers.print("reports");
    answers.assert_answered(0..=17);
}

/// Totals of any content: 31 exactly if 100,000 images are in them, as a whole-number sum, or a sum is too large.
#[test]
fn made_up_totals() {
    let mut answers = Histogram::default();
    for mut case in seeded("made_up_totals", 0..3_000) {
        let rng = &mut case.rng;
        let image = Start::Formatted.disk(rng).image;
        let mut totals = EMPTY;
        for count in &mut totals[..18] {
            *count = rng.below(6_000) as u64;
        }
        for sum in &mut totals[18..] {
            *sum = rng.below(LARGEST_SUM as usize) as u64;
        }
        let place = rng.below(TOTALS);
        totals[place] = match rng.below(8) {
            0 => rng.next64(),
            1 => 1 << 63,
            2 => u64::MAX,
            3 | 4 if place < 18 => {
                let others: u64 = totals.iter().take(18).sum::<u64>() - totals[place];
                MOST_IMAGES.saturating_sub(others + u64::from(rng.percent(50)))
            }
            5 if place >= 18 => LARGEST_SUM,
            6 if place >= 18 => LARGEST_SUM + 1,
            _ => totals[place],
        };
        if rng.percent(10) {
            totals[rng.below(18)] = 1 << 63;
        }
        let images: u128 = totals[..18].iter().map(|&count| u128::from(count)).sum();
        let full = images >= u128::from(MOST_IMAGES) || totals[18..].iter().any(|&sum| sum > LARGEST_SUM);
        let outcome = feed(&image, totals, rng);
        answers.add(outcome.answer, "report");
        assert_eq!(outcome.answer == 31, full, "{totals:?}");
    }
    answers.print("made-up totals");
    answers.assert_answered([0, 31]);
}

/// The edges one by one, on a disk that is accepted and on no disk.
#[test]
fn the_edges_of_31() {
    let rng = &mut Rng::new(31);
    let disk = Disk::<Model>::format(20, &Format::new(9, 1, b"D")).expect("it can be made");
    let with = |places: &[(usize, u64)]| {
        let mut totals = EMPTY;
        for &(place, number) in places {
            totals[place] = number;
        }
        totals
    };
    for (totals, full) in [
        (with(&[(0, 99_999)]), false),
        (with(&[(0, 100_000)]), true),
        (with(&[(17, 100_000)]), true),
        (with(&[(0, 50_000), (17, 49_999)]), false),
        (with(&[(0, 50_000), (17, 50_000)]), true),
        // Added up in 64 bits they would come to 0.
        (with(&[(0, 1 << 63), (9, 1 << 63)]), true),
        (with(&[(1, u64::MAX), (2, 1)]), true),
        (with(&[(18, LARGEST_SUM)]), false),
        (with(&[(18, LARGEST_SUM + 1)]), true),
        (with(&[(22, LARGEST_SUM + 1)]), true),
        (with(&[(23, LARGEST_SUM)]), false),
        (with(&[(23, LARGEST_SUM + 1)]), true),
        (with(&[(21, u64::MAX)]), true),
    ] {
        for (image, answer) in [(disk.image(), 0), (&[][..], 1)] {
            let (mut blocks, mut anodes) = junk_tables(image.len() / BLOCK, false, rng);
            let call = Call::Report { totals };
            let outcome = compare::<Proved>(&call, &mut image.to_vec(), &mut blocks, &mut anodes);
            assert_eq!(outcome.answer, if full { 31 } else { answer }, "{totals:?}");
        }
    }
}

/// 100,000 images are taken from empty totals, refused ones among them; the next and the one behind it are not.
#[test]
fn a_hundred_thousand_images() {
    let disk = Disk::<Model>::format(5, &Format::new(4, 1, b"disk")).expect("it can be made");
    let mut accepted = disk.image().to_vec();
    let mut damaged = accepted.clone();
    damaged[2 * BLOCK] = 0;
    let (mut blocks, mut anodes) = tables(&accepted);
    let mut totals = EMPTY;
    for place in 0..MOST_IMAGES + 2 {
        let (image, expected) = match place % 3 {
            0 => (&mut accepted, 0),
            1 => (&mut damaged, 3),
            _ => (&mut Vec::new(), 1),
        };
        let outcome = run::<Proved>(&Call::Report { totals }, image, &mut blocks, &mut anodes);
        assert_eq!(outcome.answer, if place < MOST_IMAGES { expected } else { 31 });
        totals = outcome.output.totals;
    }
    let mut expected = EMPTY;
    (expected[0], expected[1], expected[3], expected[20]) = (33_334, 33_333, 33_333, 33_334);
    assert_eq!(totals, expected);
}

/// Large disks, where every number has its full width.
#[test]
fn large_disks() {
    let rng = &mut Rng::new(65_535);
    for _ in 0..6 {
        let image = Start::Largest.disk(rng).image;
        let outcome = feed(&image, EMPTY, rng);
        assert!([0, 2].contains(&outcome.answer));
    }
}
