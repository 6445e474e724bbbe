//! Random histories of calls on the model, from disks of every kind.

use ovenknit_host::compare::Histogram;
use ovenknit_host::met::{GrowthMet, Met, NamesMet, NO_ANODE, REFUSALS};
use ovenknit_host::rng::seeded;
use ovenknit_host::shapes::{disk_blocks, shaped, Recipe};
use ovenknit_host::starts::Start;

use crate::history::History;

#[test]
fn shaped_disks_read_back_as_planned() {
    for mut case in seeded("shaped_disks_read_back_as_planned", 0..400) {
        let rng = &mut case.rng;
        let blocks = disk_blocks(400, rng);
        let disk = shaped(&Recipe::random(blocks, rng), rng);
        History::new(disk, case.seed).read_everything();
    }
}

/// What histories from one kind of disk answered and met.
#[derive(Default)]
struct Gathered {
    answers: Histogram,
    met: Met,
    names: NamesMet,
    growth: GrowthMet,
}

impl Gathered {
    fn add(&mut self, history: &History) {
        self.answers.merge(&history.answers);
        self.met.merge(&history.met);
        self.names.merge(&history.names);
        self.growth.merge(&history.growth);
    }
}

/// Runs histories from one kind of disk.
fn histories(start: Start, seeds: u64, calls: usize) -> Gathered {
    let mut gathered = Gathered::default();
    for mut case in seeded("histories", 0..seeds) {
        let mut history = History::new(start.disk(&mut case.rng), case.seed);
        history.go_on(calls);
        history.read_everything();
        gathered.add(&history);
    }
    gathered.answers.print(&format!("histories, {start:?}"));
    gathered
}

#[test]
fn histories_from_formatted_disks() {
    let Gathered { answers, names, .. } = histories(Start::Formatted, 80, 600);
    answers.assert_met(&REFUSALS);
    answers.assert_answered([28]);
    names.print("histories from formatted disks");
    names.assert_all_met();
}

#[test]
fn histories_from_shaped_disks() {
    let Gathered { answers, names, .. } = histories(Start::Shaped, 250, 150);
    answers.assert_met(&REFUSALS);
    answers.assert_met(&[(28, "make")]);
    names.print("histories from shaped disks");
    names.assert_all_met();
}

/// No anode is free at the start, and the table grows as long as blocks are free.
#[test]
fn histories_with_full_anode_tables() {
    let Gathered { answers, growth, .. } = histories(Start::FullAnodes, 250, 100);
    answers.assert_met(&[(28, "make")]);
    growth.print("histories with full anode tables");
    growth.assert_met(&["make: grew, done", "resize: grew, done"]);
}

#[test]
fn histories_with_few_anodes() {
    let Gathered { answers, growth, .. } = histories(Start::FewAnodes, 1_000, 40);
    answers.assert_met(&NO_ANODE);
    growth.assert_met(&["make: grew, done", "resize: grew, done", "remove: grew, done"]);
    histories(Start::FullSlots, 60, 40).answers.assert_met(&NO_ANODE[..2]);
}

/// Every way that a run can go back (02, No. 3), and that the table can grow (No. 6) or cannot: single changes on many disks.
#[test]
fn every_change_with_few_anodes() {
    let mut gathered = Gathered::default();
    for (start, seeds) in [(Start::FewAnodes, 1_000), (Start::FullSlots, 300)] {
        for mut case in seeded("every_change_with_few_anodes", 0..seeds) {
            let mut history = History::new(start.disk(&mut case.rng), case.seed);
            history.make_each();
            gathered.add(&history);
        }
    }
    let Gathered { answers, met, growth, .. } = gathered;
    answers.print("every change with few anodes");
    answers.assert_met(&NO_ANODE);
    met.print("every change with few anodes");
    met.assert_all_met();
    growth.print("every change with few anodes");
    growth.assert_all_met();
}

#[test]
fn histories_on_full_disks() {
    histories(Start::FullBlocks, 150, 100).answers.assert_met(&[(27, "make"), (27, "resize")]);
}

#[test]
fn histories_on_larger_disks() {
    histories(Start::Larger, 4, 120).answers.assert_answered([0, 22]);
}
