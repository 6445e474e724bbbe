//! Two disks at a time: a comparer against the model, asked in every way. `twins` makes second disks that are worth comparing
//! with a first.

mod twins;

pub use twins::{changed, place_of, Twin};

use crate::calls::{tables, Lent, BLOCK};
use crate::compare::junk_tables;
use crate::differences::{Comparer, NUMBERS};
use crate::model::Model;
use crate::rng::Rng;

/// The numbers of a difference.
pub type Numbers = [u32; NUMBERS];

/// An image with the tables that it is lent with.
#[derive(Clone, Debug, PartialEq, Eq)]
pub struct Side {
    pub image: Vec<u8>,
    pub blocks: Vec<u16>,
    pub anodes: Vec<u16>,
}

impl Side {
    /// With tables of the right size.
    pub fn new(image: Vec<u8>) -> Self {
        let (blocks, anodes) = tables(&image);
        Side { image, blocks, anodes }
    }

    /// With junk in the tables; with `short` one of them lacks entries.
    pub fn with_junk(image: Vec<u8>, short: bool, rng: &mut Rng) -> Self {
        let (blocks, anodes) = junk_tables(image.len() / BLOCK, short && image.len() >= BLOCK, rng);
        Side { image, blocks, anodes }
    }

    fn lent(&mut self) -> Lent<'_> {
        Lent { image: &mut self.image, blocks: &mut self.blocks, anodes: &mut self.anodes }
    }

    fn tables(&self) -> [&[u16]; 2] {
        [&self.blocks, &self.anodes]
    }
}

/// What a list of differences answered: the number, which image was refused, and what was handed out.
#[derive(Clone, Debug, PartialEq, Eq)]
pub struct Listed {
    pub answer: u32,
    pub refused: u32,
    pub differences: Vec<Numbers>,
}

impl Listed {
    /// These differences of two accepted images.
    fn of(differences: &[Numbers]) -> Self {
        Listed { answer: 0, refused: 0, differences: differences.to_vec() }
    }
}

/// Which image was refused, and the number; else the differences.
pub type Compared = Result<Vec<Numbers>, (u32, u32)>;

/// What stands in a buffer before a call, and behind it after every one.
const UNWRITTEN: u32 = 0xA5A5_A5A5;
/// The numbers behind a buffer that are watched.
const BEHIND: usize = 7;
/// From so many differences on, not all places and buffers are tried.
const MANY: usize = 100;
/// More room than two disks have differences.
const ROOM: usize = 8_000 * NUMBERS;

/// Two images with their tables.
#[derive(Clone, Debug, PartialEq, Eq)]
pub struct Pair {
    pub first: Side,
    pub second: Side,
}

impl Pair {
    /// With tables of the right size.
    pub fn new(first: Vec<u8>, second: Vec<u8>) -> Self {
        Pair { first: Side::new(first), second: Side::new(second) }
    }

    /// The same the other way round.
    pub fn swapped(&self) -> Pair {
        Pair { first: self.second.clone(), second: self.first.clone() }
    }

    /// Makes a call by a comparer and by the model, and compares what they leave of both disks. The tables are then what both
    /// left; the images stay.
    fn side_by_side<T>(
        &mut self,
        by_comparer: impl FnOnce(&mut Pair) -> T,
        by_model: impl FnOnce(&mut Pair) -> T,
    ) -> [T; 2] {
        let mut other = self.clone();
        let result = by_comparer(self);
        assert!(self.first.image == other.first.image, "the first image has changed");
        assert!(self.second.image == other.second.image, "the second image has changed");
        let expected = by_model(&mut other);
        assert!(self.first.tables() == other.first.tables(), "tables of the first differ");
        assert!(self.second.tables() == other.second.tables(), "tables of the second differ");
        [result, expected]
    }

    /// Fills all tables with junk.
    fn scramble(&mut self, rng: &mut Rng) {
        for side in [&mut self.first, &mut self.second] {
            let (start, step) = (rng.word(), rng.word() | 1);
            let tables = side.blocks.iter_mut().chain(&mut side.anodes).enumerate();
            tables.for_each(|(at, entry)| *entry = start.wrapping_add((at as u16).wrapping_mul(step)));
        }
    }

    /// The difference at a place: the number and the fields.
    pub fn compare<C: Comparer>(&mut self, place: u64) -> (u32, [u32; 1 + NUMBERS]) {
        let [outcome, expected] =
            self.side_by_side(|pair| pair.ask::<C>(place), |pair| pair.ask::<Model>(place));
        assert_eq!(outcome, expected, "outcomes differ at place {place}");
        outcome
    }

    fn ask<C: Comparer>(&mut self, place: u64) -> (u32, [u32; 1 + NUMBERS]) {
        let mut fields = [UNWRITTEN; 1 + NUMBERS];
        let answer = C::compare(self.first.lent(), self.second.lent(), place, &mut fields);
        (answer, fields)
    }

    /// The differences from a place on, in a buffer of so many numbers. What is behind them, and behind the buffer, stays.
    pub fn differences<C: Comparer>(&mut self, place: u64, room: usize) -> Listed {
        let [outcome, expected] = self
            .side_by_side(|pair| pair.ask_all::<C>(place, room), |pair| pair.ask_all::<Model>(place, room));
        assert_eq!(outcome, expected, "lists differ from place {place} on, with room for {room}");
        let (answer, [refused, many], out) = outcome;
        let (numbers, behind) = out.split_at(many as usize * NUMBERS);
        assert!(behind.iter().all(|&number| number == UNWRITTEN), "what is behind the list has changed");
        let differences = numbers.as_chunks().0.to_vec();
        assert!(answer == 0 || differences.is_empty(), "differences after {answer}");
        Listed { answer, refused, differences }
    }

    fn ask_all<C: Comparer>(&mut self, place: u64, room: usize) -> (u32, [u32; 2], Vec<u32>) {
        let (mut out, mut fields) = (vec![UNWRITTEN; room + BEHIND], [UNWRITTEN; 2]);
        let answer =
            C::differences(self.first.lent(), self.second.lent(), place, &mut out[..room], &mut fields);
        (answer, fields, out)
    }

    /// All differences, or which image was refused, asked for in many ways that must say the same: at once, place by place, and
    /// in buffers of any length. Of very many differences not every place is asked for.
    pub fn all<C: Comparer>(&mut self, rng: &mut Rng) -> Compared {
        let Listed { answer, refused, differences } = self.differences::<C>(0, ROOM);
        if answer != 0 {
            self.refused_alike::<C>((answer, refused), rng);
            return Err((refused, answer));
        }
        assert_eq!(refused, 0);
        self.place_by_place::<C>(&differences, rng);
        self.in_buffers::<C>(&differences, rng);
        Ok(differences)
    }

    fn place_by_place<C: Comparer>(&mut self, differences: &[Numbers], rng: &mut Rng) {
        let many = differences.len();
        self.scramble(rng);
        for place in (0..many).filter(|_| many < MANY || rng.below(many) < 8) {
            let [kind, first, second, fields, byte, bytes] = differences[place];
            assert_eq!(self.compare::<C>(place as u64), (0, [0, kind, first, second, fields, byte, bytes]));
        }
        for place in past(many, rng) {
            assert_eq!(self.compare::<C>(place), (22, [0; 1 + NUMBERS]));
        }
    }

    fn in_buffers<C: Comparer>(&mut self, differences: &[Numbers], rng: &mut Rng) {
        let many = differences.len();
        let whole = many * NUMBERS;
        self.scramble(rng);
        for room in [0, 5, 6, 11, 12, 13, whole, whole.saturating_sub(1), whole + 5, rng.below(whole + 9)] {
            if many >= MANY && rng.percent(60) {
                continue;
            }
            let from =
                [0, many.min(1), many / 2, many.saturating_sub(1), many, rng.below(many + 1)][rng.below(6)];
            let end = many.min(from + room / NUMBERS);
            assert_eq!(self.differences::<C>(from as u64, room), Listed::of(&differences[from..end]));
        }
        for place in past(many, rng) {
            assert_eq!(self.differences::<C>(place, 20), Listed::of(&[]));
        }
    }

    /// A refusal is the same whatever is asked for.
    fn refused_alike<C: Comparer>(&mut self, refusal: (u32, u32), rng: &mut Rng) {
        let (answer, refused) = refusal;
        for place in [0, 1, rng.next64(), u64::MAX] {
            self.scramble(rng);
            assert_eq!(self.compare::<C>(place), (answer, [refused, 0, 0, 0, 0, 0, 0]));
            let room = rng.below(20);
            assert_eq!(
                self.differences::<C>(place, room),
                Listed { answer, refused, differences: Vec::new() }
            );
        }
    }

    /// Compares both ways round, each disk with itself too, and gives the differences. The list of the other way round has the
    /// same differences with their places changed over.
    pub fn both_ways<C: Comparer>(&mut self, rng: &mut Rng) -> Compared {
        let compared = self.all::<C>(rng);
        let mut other_way = self.swapped();
        let swapped = other_way.all::<C>(rng);
        if let (Ok(differences), Ok(swapped)) = (&compared, &swapped) {
            assert_eq!(sorted(differences.iter().map(mirrored)), sorted(swapped.iter().copied()));
            for side in [&self.first, &self.second] {
                let mut itself = Pair { first: side.clone(), second: side.clone() };
                assert_eq!(itself.all::<C>(rng), Ok(Vec::new()));
            }
        }
        compared
    }
}

/// Places past the last of so many.
fn past(many: usize, rng: &mut Rng) -> [u64; 5] {
    let many = many as u64;
    [many, many + 1, many.saturating_add(rng.next64()), 1 << 32, u64::MAX]
}

fn sorted(differences: impl Iterator<Item = Numbers>) -> Vec<Numbers> {
    let mut differences: Vec<Numbers> = differences.collect();
    differences.sort();
    differences
}

/// The same difference, with the images the other way round.
fn mirrored(numbers: &Numbers) -> Numbers {
    let [kind, first, second, fields, byte, many] = *numbers;
    let kind = match kind {
        1 => 2,
        2 => 1,
        kind => kind,
    };
    [kind, second, first, fields, byte, many]
}

#[cfg(test)]
mod tests {
    use super::*;
    use crate::rng::seeded;
    use crate::starts::Start;

    /// A comparer that is the model but for one fault, by number.
    struct Faulty<const FAULT: usize>;

    impl<const FAULT: usize> Comparer for Faulty<FAULT> {
        fn compare(first: Lent, second: Lent, place: u64, fields: &mut [u32; 1 + NUMBERS]) -> u32 {
            let answer = Model::compare(first, second, place, fields);
            match FAULT {
                // The first of no bytes is named.
                1 if answer == 0 && fields[6] == 0 => fields[5] = 1,
                2 if answer == 22 => return 0,
                _ => {}
            }
            answer
        }

        fn differences(first: Lent, second: Lent, place: u64, out: &mut [u32], fields: &mut [u32; 2]) -> u32 {
            let answer = Model::differences(first, second, place, out, fields);
            match FAULT {
                // A number of a difference that is not whole.
                3 if !out.len().is_multiple_of(NUMBERS) => out[out.len() - 1] = 0,
                4 if answer != 0 => out.fill(0),
                5 if fields[1] > 1 => out.swap(1, 1 + NUMBERS),
                _ => {}
            }
            answer
        }
    }

    fn compare_pairs<C: Comparer>() {
        for mut case in seeded("pairs", 0..12) {
            let rng = &mut case.rng;
            let first = Start::SMALL[rng.below(Start::SMALL.len())].disk(rng);
            let second = Twin::RebuiltAndChanged.of(&first, rng);
            let mut pair = Pair::new(first.image, second.image);
            pair.both_ways::<C>(rng).expect("both are accepted");
            pair.first.image[2 * BLOCK] = 0;
            assert_eq!(pair.all::<C>(rng), Err((1, 3)));
        }
    }

    #[test]
    fn the_model_equals_itself() {
        compare_pairs::<Faulty<0>>();
    }

    #[test]
    #[should_panic(expected = "outcomes differ")]
    fn a_field_without_meaning_is_seen() {
        compare_pairs::<Faulty<1>>();
    }

    #[test]
    #[should_panic(expected = "outcomes differ")]
    fn a_place_past_the_last_is_seen() {
        compare_pairs::<Faulty<2>>();
    }

    #[test]
    #[should_panic(expected = "lists differ")]
    fn a_number_behind_the_list_is_seen() {
        compare_pairs::<Faulty<3>>();
    }

    #[test]
    #[should_panic(expected = "lists differ")]
    fn a_buffer_of_a_refused_call_is_seen() {
        compare_pairs::<Faulty<4>>();
    }

    #[test]
    #[should_panic(expected = "lists differ")]
    fn another_order_is_seen() {
        compare_pairs::<Faulty<5>>();
    }
}
