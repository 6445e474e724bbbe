//! The proved comparison of two disks against the model: a disk and a copy after changes, the same tree on another disk,
//! unrelated disks, damaged ones and no disks at all, with tables that hold junk or are too short. Each pair is asked for in
//! many ways: place by place, at once, in buffers of any length, and the other way round.

use std::collections::BTreeMap;

use ovenknit_host::calls::{BLOCK, ROOT};
use ovenknit_host::differences::{Difference, Refused};
use ovenknit_host::disk::{Disk, Error, Format, New};
use ovenknit_host::ffi::Proved;
use ovenknit_host::met::DifferencesMet;
use ovenknit_host::model::Model;
use ovenknit_host::pairs::{changed, Compared, Pair, Side, Twin};
use ovenknit_host::rng::{seeded, Rng};
use ovenknit_host::shapes::{random_bytes, shaped, Damager, Recipe, Shaped};
use ovenknit_host::starts::Start;

/// How often each refusal of each image was met, how often two disks were the same, and what else was met.
#[derive(Default)]
struct Met {
    refusals: BTreeMap<(u32, u32), usize>,
    same: usize,
    differences: DifferencesMet,
}

impl Met {
    fn note(&mut self, compared: &Compared) {
        match compared {
            Err(refusal) => *self.refusals.entry(*refusal).or_default() += 1,
            Ok(differences) => {
                self.same += usize::from(differences.is_empty());
                differences.iter().for_each(|difference| self.differences.note(difference));
            }
        }
    }
}

/// Both images with junk in tables that are long enough.
fn with_junk(first: &[u8], second: &[u8], rng: &mut Rng) -> Pair {
    let [first, second] = [first, second].map(|image| Side::with_junk(image.to_vec(), false, rng));
    Pair { first, second }
}

#[test]
fn random_pairs_equal_the_model() {
    let mut met = Met::default();
    for mut case in seeded("random_pairs_equal_the_model", 0..300) {
        let rng = &mut case.rng;
        let first = Start::SMALL[rng.below(Start::SMALL.len())].disk(rng);
        for twin in Twin::ALL {
            let second = twin.of(&first, rng);
            let compared = with_junk(&first.image, &second.image, rng).both_ways::<Proved>(rng);
            assert!(twin != Twin::Rebuilt || compared == Ok(Vec::new()), "{twin:?}: {compared:?}");
            met.note(&compared);
        }
    }
    println!("the same: {}, {:?}", met.same, met.differences.counts);
    assert!(met.refusals.is_empty() && met.same > 20, "{:?}", met.refusals);
    met.differences.assert_each(20);
}

/// An accepted disk, a damaged one, or no disk, at times with a table that is too short.
fn any_side(damager: &Damager, image: &[u8], rng: &mut Rng) -> Side {
    let image = match rng.below(4) {
        0 => damager.damage(1 + rng.below(17) as u32, rng).unwrap_or_else(|| random_bytes(rng)),
        1 if rng.percent(30) => random_bytes(rng),
        _ => image.to_vec(),
    };
    let short = rng.percent(15);
    Side::with_junk(image, short, rng)
}

#[test]
fn damaged_disks_and_short_tables_equal_the_model() {
    let mut met = Met::default();
    for mut case in seeded("damaged_disks_and_short_tables_equal_the_model", 0..800) {
        let rng = &mut case.rng;
        let first = Start::SMALL[rng.below(Start::SMALL.len())].disk(rng);
        let second = changed(&first, 3, rng);
        let damagers = [&first, &second].map(|disk| Damager::new(&disk.image).expect("the disk is accepted"));
        for _ in 0..4 {
            let mut pair = Pair {
                first: any_side(&damagers[0], &first.image, rng),
                second: any_side(&damagers[1], &second.image, rng),
            };
            let before = pair.second.clone();
            // Where the first is refused, the second is not looked at.
            let [refused, ..] = pair.compare::<Proved>(0).1;
            assert!(refused != 1 || pair.second == before, "the second's tables have changed");
            met.note(&pair.all::<Proved>(rng));
        }
    }
    println!("{:?}\n{:?}", met.refusals, met.differences.counts);
    for number in 1..=17 {
        for image in [1, 2] {
            assert!(met.refusals.contains_key(&(image, number)), "{number} of image {image} was never met");
        }
    }
}

/// Large disks, where every number has its full width, and pairs with thousands of differences.
#[test]
fn large_disks_equal_the_model() {
    let rng = &mut Rng::new(65_535);
    for recipe in [Recipe::small_files(65_535), Recipe::fragmented(65_535), Recipe::many_names(65_535)] {
        let first = shaped(&recipe, rng);
        let second = changed(&first, 40, rng);
        let compared = with_junk(&first.image, &second.image, rng).all::<Proved>(rng);
        assert!(compared.is_ok_and(|differences| !differences.is_empty()));
    }
    let (full, other) =
        (shaped(&Recipe::small_files(65_535), rng), shaped(&Recipe::small_files(65_535), rng));
    let empty = Disk::<Model>::format(5, &Format::new(4, 1, b"disk")).expect("it can be made");
    for (first, second, least) in [
        (full.image.as_slice(), empty.image(), 3_000),
        (empty.image(), full.image.as_slice(), 3_000),
        (full.image.as_slice(), other.image.as_slice(), 3_000),
    ] {
        let compared = with_junk(first, second, rng).all::<Proved>(rng);
        assert!(compared.is_ok_and(|differences| differences.len() >= least));
    }
    let mut itself = with_junk(&full.image, &full.image, rng);
    assert_eq!(itself.all::<Proved>(rng), Ok(Vec::new()));
}

/// Directories as deep as there are blocks for.
#[test]
fn deep_directories_equal_the_model() {
    let mut disk = Disk::<Model>::format(300, &Format::new(280, 4, b"deep")).expect("it can be made");
    let mut inner = ROOT;
    for _ in 0..280 {
        disk.make(inner, &New::directory(b"d")).expect("there is room");
        inner = disk.find(inner, b"D").expect("it was made").anode;
    }
    let deep = disk.image().to_vec();
    disk.make(inner, &New::file(b"x")).expect("there is room");
    let rng = &mut Rng::new(5);
    let differences =
        with_junk(&deep, disk.image(), rng).both_ways::<Proved>(rng).expect("both are accepted");
    assert!(matches!(differences[..], [[2, 0, _, 0, 0, 0]]), "{differences:?}");
    let empty = Disk::<Model>::format(300, &Format::new(280, 4, b"deep")).expect("it can be made");
    let differences = with_junk(&deep, empty.image(), rng).both_ways::<Proved>(rng);
    assert_eq!(differences.map(|differences| differences.len()), Ok(280));
}

/// The safe wrapper says the same on both libraries.
#[test]
fn the_wrapper_says_the_same() {
    for mut case in seeded("the_wrapper_says_the_same", 0..60) {
        let rng = &mut case.rng;
        let Shaped { image: first, tree } = Start::SMALL[rng.below(Start::SMALL.len())].disk(rng);
        let second = changed(&Shaped { image: first.clone(), tree }, 5, rng).image;
        let by_proved = Disk::<Proved>::new(first.clone()).differences(&mut Disk::new(second.clone()));
        let by_model = Disk::<Model>::new(first.clone()).differences(&mut Disk::new(second.clone()));
        assert_eq!(by_proved, by_model);
        let places = by_proved.expect("both are accepted");
        let within = |place: u32, image: &[u8]| (3 * BLOCK..image.len()).contains(&(place as usize));
        assert!(places.iter().all(|difference| match *difference {
            Difference::OnlyFirst { place } => within(place, &first),
            Difference::OnlySecond { place } => within(place, &second),
            Difference::Both { first: one, second: other, .. } =>
                within(one, &first) && within(other, &second),
        }));
        let refused = Disk::<Proved>::new(first).differences(&mut Disk::new(second[1..].to_vec()));
        assert!(matches!(refused, Err(Refused { error: Error::ImageSize, .. })), "{refused:?}");
    }
}
