//! What the changes of histories met of the growth of the anode table (02, No. 6), counted.

use std::collections::BTreeMap;

use crate::calls::Call;
use crate::met::worked_out;
use crate::model::layout::{last_reserved, AnodeTable, FIRST_USER, FREE_LIST};
use crate::model::naive::giving::{Given, Part, Step, Way};
use crate::model::naive::lists::{Growth, Need, Outcome};
use crate::tree::Tree;

/// What a change can meet of growth, in words.
const CASES: [&str; 22] = [
    "make: grew, done",
    "resize: grew, done",
    "remove: grew, done",
    "make: grew, then 27",
    "resize: grew, then 27",
    "grew for a head",
    "grew for a block of a directory",
    "grew for a block of a file",
    "grew for a cut piece",
    "grew for the run of a head that stays",
    "grew for the upper part of a whole extent",
    "grew for a part of a run that crosses",
    "a block up to last reserved",
    "a block above last reserved",
    "a block that the call gave back before",
    "a slot below a used one",
    "anode 2 emptied",
    "an anode emptied, and used by the call",
    "an anode emptied, and left free",
    "an empty anode filled afresh, and no new one needed",
    "28, a slot is empty and no block is left",
    "28, blocks are free and no slot is empty",
];

/// How often changes met each case.
#[derive(Clone, Debug, Default)]
pub struct GrowthMet {
    cases: BTreeMap<String, usize>,
}

impl GrowthMet {
    /// Notes a call on an accepted disk that holds this tree, if it takes or gives back.
    pub fn note(&mut self, image: &[u8], tree: &Tree, call: &Call) {
        let Some(outcome) = worked_out(image, tree, call) else {
            return;
        };
        let table = AnodeTable::read(image);
        let mut note = |case: &str, there: bool| {
            *self.cases.entry(String::from(case)).or_default() += usize::from(there);
        };
        let (grew, empty) = (!outcome.growths.is_empty(), table.empty_slot().is_some());
        let free = table.chain_blocks(FREE_LIST).count();
        note(&format!("{}: grew, done", call.label()), grew && outcome.answer == 0);
        note(&format!("{}: grew, then 27", call.label()), grew && outcome.answer == 27);
        note("28, a slot is empty and no block is left", empty && outcome.answer == 28);
        note("28, blocks are free and no slot is empty", !empty && free > 0 && outcome.answer == 28);
        for growth in outcome.growths.iter().filter(|_| outcome.answer == 0) {
            note_growth(growth, &table, &outcome, image, &mut note);
            note_need(growth, matches!(call, Call::Make { .. }), &mut note);
        }
        for step in outcome.steps.iter().filter(|step| step.grew && outcome.answer == 0) {
            note_step(step, &mut note);
        }
    }

    pub fn merge(&mut self, other: &GrowthMet) {
        for (case, count) in &other.cases {
            *self.cases.entry(case.clone()).or_default() += count;
        }
    }

    pub fn print(&self, what: &str) {
        println!("{what}: growth of the anode table");
        for (case, count) in &self.cases {
            println!("{count:7} {case}");
        }
    }

    pub fn assert_all_met(&self) {
        self.assert_met(&CASES);
    }

    pub fn assert_met(&self, cases: &[&str]) {
        for &case in cases {
            assert!(self.cases.get(case).is_some_and(|&count| count > 0), "{case} was never met");
        }
    }
}

/// Which block and which slot a growth took, and what it emptied.
fn note_growth(
    growth: &Growth,
    table: &AnodeTable,
    outcome: &Outcome,
    image: &[u8],
    note: &mut impl FnMut(&str, bool),
) {
    let Growth { slot, block, emptied, .. } = *growth;
    let was_free = table.chain_blocks(FREE_LIST).any(|free| usize::from(free) == block);
    note("a block up to last reserved", block <= usize::from(last_reserved(image)));
    note("a block above last reserved", block > usize::from(last_reserved(image)));
    note("a block that the call gave back before", !was_free);
    note("a slot below a used one", table.slots()[slot..].iter().any(|&number| number != 0));
    let emptied = emptied.map(|number| number as u16);
    let zeroed = emptied.filter(|&number| number >= FIRST_USER);
    let left = zeroed.and_then(|number| outcome.anodes.get(&number)).map(|fields| *fields == (0, 0, 0));
    note("anode 2 emptied", emptied == Some(2));
    note("an anode emptied, and used by the call", left == Some(false));
    note("an anode emptied, and left free", left == Some(true));
}

/// What a make or a resize to a larger size needed the anode for.
fn note_need(growth: &Growth, make: bool, note: &mut impl FnMut(&str, bool)) {
    note("grew for a head", growth.need == Need::Head);
    note("grew for a block of a directory", growth.need == Need::Block && make);
    note("grew for a block of a file", growth.need == Need::Block && !make);
}

/// Which run needed the anode.
fn note_step(step: &Step, note: &mut impl FnMut(&str, bool)) {
    let whole = step.given == Given::Whole;
    note("grew for a cut piece", step.given == Given::CutPiece);
    note("grew for the run of a head that stays", step.given == Given::KeptHead);
    note("grew for the upper part of a whole extent", whole && step.part == Part::Upper);
    note("grew for a part of a run that crosses", !whole && step.part != Part::All);
    note("an empty anode filled afresh, and no new one needed", step.way == Way::Filled);
}
