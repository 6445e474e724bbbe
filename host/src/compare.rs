//! A library against the model: the same call on the same image, with the same junk in the tables, must give the
//! same answer and output, and leave the same image and tables to the last entry.

use std::collections::BTreeMap;

use crate::calls::{run, Call, Library, Outcome, ANODES, BLOCK};
use crate::cuts::{any_room, list_length};
use crate::histories::{every_change, follow, random_call, random_safe_call, Trend};
use crate::met::{GrowthMet, Met, NamesMet};
use crate::model::{self, Model, Totals};
use crate::rng::Rng;
use crate::shapes::Shaped;
use crate::tree::Tree;

/// A table of junk, cheaply: one pattern from a random start.
fn junk(length: usize, rng: &mut Rng) -> Vec<u16> {
    let start = rng.word();
    (0..length).map(|place| start.wrapping_add((place as u16).wrapping_mul(40_503))).collect()
}

/// Tables of junk for a disk of so many blocks, with some entries past their ends. With `short` one of them lacks
/// entries.
pub fn junk_tables(blocks: usize, short: bool, rng: &mut Rng) -> (Vec<u16>, Vec<u16>) {
    let mut lengths = [blocks + rng.below(9), ANODES + rng.below(9)];
    if short {
        let table = rng.below(2);
        let needed = [blocks, ANODES][table];
        lengths[table] = [0, needed / 2, needed - 1][rng.below(3)];
    }
    (junk(lengths[0], rng), junk(lengths[1], rng))
}

/// Runs a call on the library and on the model and compares all that they leave. The image and the tables are then
/// what both left.
pub fn compare<L: Library>(call: &Call, image: &mut [u8], blocks: &mut [u16], anodes: &mut [u16]) -> Outcome {
    let (mut model_image, mut model_blocks, mut model_anodes) =
        (image.to_vec(), blocks.to_vec(), anodes.to_vec());
    let outcome = run::<L>(call, image, blocks, anodes);
    let expected = run::<Model>(call, &mut model_image, &mut model_blocks, &mut model_anodes);
    let answer = outcome.answer;
    assert_eq!(outcome, expected, "outcomes differ: {call:?}");
    assert!(*image == model_image[..], "images differ after {call:?}, answered {answer}");
    assert!(*blocks == model_blocks[..], "block tables differ after {call:?}, answered {answer}");
    assert!(*anodes == model_anodes[..], "anode tables differ after {call:?}, answered {answer}");
    outcome
}

/// The blocks of a disk by kind. It must be accepted, the kinds must add up to its size, and files and directories
/// must have the blocks that the tree needs.
pub fn totals(image: &[u8], tree: &Tree) -> Totals {
    let totals = model::totals(image).expect("the disk is no longer accepted");
    assert_eq!(totals.sum(), image.len() / BLOCK, "{totals:?}");
    assert_eq!((totals.files, totals.directories), tree.blocks());
    totals
}

/// How often each call gave each answer.
#[derive(Clone, Debug, Default)]
pub struct Histogram {
    counts: BTreeMap<(u32, &'static str), usize>,
}

impl Histogram {
    pub fn add(&mut self, answer: u32, call: &'static str) {
        *self.counts.entry((answer, call)).or_default() += 1;
    }

    pub fn merge(&mut self, other: &Histogram) {
        for (&key, &count) in &other.counts {
            *self.counts.entry(key).or_default() += count;
        }
    }

    pub fn total(&self) -> usize {
        self.counts.values().sum()
    }

    /// How often a number was answered, by whatever call.
    pub fn answered(&self, number: u32) -> usize {
        self.counts.iter().filter(|(key, _)| key.0 == number).map(|(_, &count)| count).sum()
    }

    /// Prints the number of calls, then a line for each answer with the calls that gave it.
    pub fn print(&self, what: &str) {
        println!("{what}: {} calls", self.total());
        let mut lines: BTreeMap<u32, Vec<String>> = BTreeMap::new();
        for ((answer, call), count) in &self.counts {
            lines.entry(*answer).or_default().push(format!("{call} {count}"));
        }
        for (answer, calls) in lines {
            println!("  {answer:2}: {} ({})", self.answered(answer), calls.join(", "));
        }
    }

    pub fn assert_answered(&self, numbers: impl IntoIterator<Item = u32>) {
        for number in numbers {
            assert!(self.answered(number) > 0, "{number} was never answered");
        }
    }

    /// Each of these answers was given by that call.
    pub fn assert_met(&self, cases: &[(u32, &'static str)]) {
        for case in cases {
            assert!(self.counts.contains_key(case), "{case:?} was never met");
        }
    }
}

/// A disk under a history of random calls, run on a library and on the model.
pub struct History<'a> {
    disk: Shaped,
    rng: &'a mut Rng,
    pub answers: Histogram,
    pub met: Met,
    pub names: NamesMet,
    pub growth: GrowthMet,
}

impl<'a> History<'a> {
    pub fn new(disk: Shaped, rng: &'a mut Rng) -> Self {
        let (answers, met) = (Histogram::default(), Met::default());
        History { disk, rng, answers, met, names: NamesMet::default(), growth: GrowthMet::default() }
    }

    /// Makes random calls. After each one the disk is accepted, and its seven kinds of blocks add up to its size.
    pub fn run<L: Library>(&mut self, calls: usize) {
        let mut trend = Trend::random(self.rng);
        let mut free = self.free_blocks();
        for _ in 0..calls {
            trend = trend.next(self.rng);
            let call = random_call(&self.disk.image, &self.disk.tree, trend, free, self.rng);
            self.call::<L>(&call);
            free = self.free_blocks();
        }
    }

    /// The same with most of the changes safe ones, in buffers of any length.
    pub fn run_safely<L: Library>(&mut self, calls: usize) {
        let mut trend = Trend::random(self.rng);
        let mut free = self.free_blocks();
        for _ in 0..calls {
            trend = trend.next(self.rng);
            let Shaped { image, tree } = &self.disk;
            let call = match self.rng.percent(75) {
                true => random_safe_call(image, tree, trend, free, self.rng),
                false => random_call(image, tree, trend, free, self.rng),
            };
            let call = any_room(&call, list_length(&call, image), self.rng);
            self.call::<L>(&call);
            free = self.free_blocks();
        }
    }

    /// Makes every change of every entry, each from the disk as it is now.
    pub fn make_each<L: Library>(&mut self) {
        let disk = self.disk.clone();
        for call in every_change(&disk.tree) {
            self.call::<L>(&call);
            totals(&self.disk.image, &self.disk.tree);
            self.disk.clone_from(&disk);
        }
    }

    /// The same by safe changes, each in a buffer that just holds the list, and in one that lacks a byte.
    pub fn make_each_safely<L: Library>(&mut self) {
        let disk = self.disk.clone();
        for change in every_change(&disk.tree) {
            let call = change.safely(0).expect("every change has a safe call");
            let length = list_length(&call, &disk.image);
            for room in [length.saturating_sub(1), length] {
                self.call::<L>(&call.with_room(room));
                totals(&self.disk.image, &self.disk.tree);
                self.disk.clone_from(&disk);
            }
        }
    }

    fn call<L: Library>(&mut self, call: &Call) {
        let Shaped { image, tree } = &mut self.disk;
        self.met.note(image, tree, call);
        self.names.note(tree, call);
        self.growth.note(image, tree, call);
        let short = self.rng.percent(2);
        let (mut block_table, mut anode_table) = junk_tables(image.len() / BLOCK, short, self.rng);
        let answer = compare::<L>(call, image, &mut block_table, &mut anode_table).answer;
        self.answers.add(answer, call.label());
        if answer == 0 && call.changes() {
            follow(tree, call, image);
        }
    }

    fn free_blocks(&self) -> usize {
        totals(&self.disk.image, &self.disk.tree).free
    }
}

#[cfg(test)]
mod tests {
    use super::*;
    use crate::calls::{Lent, Output, BLOCK_WRITE};
    use crate::starts::Start;

    /// A library that is the model but for one fault, by number.
    struct Faulty<const FAULT: usize>;

    impl<const FAULT: usize> Library for Faulty<FAULT> {
        fn answer(call: &Call, lent: Lent, output: &mut Output) -> u32 {
            let Lent { image, blocks, anodes } = lent;
            let lent = Lent { image: &mut *image, blocks: &mut *blocks, anodes: &mut *anodes };
            let answer = Model::answer(call, lent, output);
            match (FAULT, call) {
                (1, Call::Remove { .. }) if answer == 25 => return 24,
                // A byte of block 0, which no rule examines.
                (2, Call::Write { .. }) => image[511] ^= 1,
                (3, _) if answer >= 20 => blocks[1] = 0,
                // Past the end of the table that the rules know.
                (4, Call::List { .. }) if anodes.len() > ANODES => anodes[ANODES] ^= 1,
                (5, Call::Read { .. }) if answer != 0 => output.bytes.fill(0),
                (6, Call::List { .. }) if answer == 22 => output.entry[9] = 1,
                (7, Call::SafeRemove { .. }) if answer == 32 => output.writes.fill(0),
                (8, Call::SafeResize { .. }) if answer == 0 => output.writes[1] ^= 1,
                (9, Call::SafeMake { .. }) if answer != 0 => output.count = [1],
                // Behind the list, where the buffer is longer.
                (10, Call::SafeWrite { .. }) if answer == 0 => {
                    let past = output.writes.get_mut(output.count[0] as usize * BLOCK_WRITE..);
                    past.into_iter().flatten().for_each(|byte| *byte ^= 1);
                }
                _ => {}
            }
            answer
        }
    }

    fn histories<L: Library>() {
        for seed in 0..60 {
            let rng = &mut Rng::new(seed);
            let disk = Start::SMALL[seed as usize % Start::SMALL.len()].disk(rng);
            History::new(disk, rng).run::<L>(100);
        }
    }

    fn safe_histories<L: Library>() {
        for seed in 0..60 {
            let rng = &mut Rng::new(seed);
            History::new(Start::Roomy.disk(rng), rng).run_safely::<L>(40);
        }
    }

    #[test]
    fn the_model_equals_itself() {
        let rng = &mut Rng::new(1);
        let mut history = History::new(Start::Shaped.disk(rng), rng);
        history.run::<Faulty<0>>(100);
        assert_eq!(history.answers.total(), 100);
    }

    #[test]
    #[should_panic(expected = "outcomes differ")]
    fn a_wrong_number_is_seen() {
        histories::<Faulty<1>>();
    }

    #[test]
    #[should_panic(expected = "images differ")]
    fn a_changed_byte_is_seen() {
        histories::<Faulty<2>>();
    }

    #[test]
    #[should_panic(expected = "block tables differ")]
    fn a_wrong_owner_is_seen() {
        histories::<Faulty<3>>();
    }

    #[test]
    #[should_panic(expected = "anode tables differ")]
    fn an_entry_past_the_end_is_seen() {
        histories::<Faulty<4>>();
    }

    #[test]
    #[should_panic(expected = "outcomes differ")]
    fn an_output_of_a_refused_read_is_seen() {
        histories::<Faulty<5>>();
    }

    #[test]
    #[should_panic(expected = "outcomes differ")]
    fn a_field_of_a_refused_list_is_seen() {
        histories::<Faulty<6>>();
    }

    #[test]
    fn safe_changes_by_the_model_equal_themselves() {
        safe_histories::<Faulty<0>>();
    }

    #[test]
    #[should_panic(expected = "outcomes differ")]
    fn a_buffer_of_a_refused_change_is_seen() {
        safe_histories::<Faulty<7>>();
    }

    #[test]
    #[should_panic(expected = "outcomes differ")]
    fn another_block_in_a_list_is_seen() {
        safe_histories::<Faulty<8>>();
    }

    #[test]
    #[should_panic(expected = "outcomes differ")]
    fn a_count_of_a_refused_change_is_seen() {
        safe_histories::<Faulty<9>>();
    }

    #[test]
    #[should_panic(expected = "outcomes differ")]
    fn a_byte_past_a_list_is_seen() {
        safe_histories::<Faulty<10>>();
    }
}
