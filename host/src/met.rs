//! What the shrinks and removals of histories met of 02, No. 3, counted; in `names` what their names met of No. 5, in
//! `growth` what their changes met of No. 6. In `answers` the refusals that they must meet, in `differences` what comparisons
//! met of No. 7.

mod answers;
mod differences;
mod growth;
mod names;

pub use answers::{NO_ANODE, REFUSALS, SAFE_DONE, SAFE_REFUSALS};
pub use differences::DifferencesMet;
pub use growth::GrowthMet;
pub use names::NamesMet;

use std::collections::BTreeMap;

use crate::calls::{Call, DIRECTORY};
use crate::disk::Kind;
use crate::model::layout::{Anode, AnodeTable, BLOCK, FIRST_USER};
use crate::model::naive::giving::{dissolve, shorten, Given, Part, Step, Way};
use crate::model::naive::lists::Outcome;
use crate::model::naive::taking::{enlarge, make};
use crate::tree::{entry_length, Node, Tree};

/// What a run is, and where it goes.
type Case = (Given, Part, Way);

/// Every case that there is. A cut piece starts behind blocks that the file keeps, and an upper part above last reserved,
/// so that neither joins after an end; a lower part ends at last reserved, so that it joins before no start.
pub fn cases() -> Vec<Case> {
    let mut cases = Vec::new();
    for given in [Given::Whole, Given::CutPiece, Given::KeptHead] {
        for part in [Part::All, Part::Upper, Part::Lower] {
            let has_anode = given == Given::Whole && part != Part::Upper;
            let ways = [
                (Way::JoinedAfter, given != Given::CutPiece && part != Part::Upper),
                (Way::JoinedBefore, part != Part::Lower),
                (Way::Filled, true),
                (Way::OwnAnode, has_anode),
                (Way::LowestFree, !has_anode),
                (Way::Refused, !has_anode),
            ];
            cases.extend(ways.iter().filter(|(_, there)| *there).map(|&(way, _)| (given, part, way)));
        }
    }
    cases
}

/// What the chain is like and where its new end lies, in words.
pub const SHAPES: [&str; 14] = [
    "shrink inside an extent",
    "shrink at an extent's end",
    "shrink to nothing",
    "shrink over several extents",
    "shrink of a chain across last reserved",
    "removal of a chain across last reserved",
    "empty anode between extents",
    "empty anode behind the last extent",
    "empty head before extents",
    "removal of a directory",
    "removal of a directory of several blocks",
    "no anode to spare, done",
    "no anode to spare, refused",
    "anode zeroed by the call and used again",
];

/// How often each was met.
#[derive(Clone, Debug, Default)]
pub struct Met {
    cases: BTreeMap<Case, usize>,
    shapes: BTreeMap<&'static str, usize>,
}

impl Met {
    /// Notes a call on an accepted disk that holds this tree, if it gives back.
    pub fn note(&mut self, image: &[u8], tree: &Tree, call: &Call) {
        let Some((node, outcome)) = given_back(image, tree, call) else {
            return;
        };
        for Step { given, part, way, .. } in &outcome.steps {
            *self.cases.entry((*given, *part, *way)).or_default() += 1;
        }
        let table = AnodeTable::read(image);
        let chain: Vec<Anode> = table.chain(node.entry.anode).map(|(_, anode)| anode).collect();
        let removed = matches!(call, Call::Remove { .. });
        let mut note = |shape, there| *self.shapes.entry(shape).or_default() += usize::from(there);
        note_end(&outcome, &chain, removed, &mut note);
        note_chain(&chain, node, &mut note);
        let spare = table.existing().any(|number| number >= FIRST_USER && !table.in_use(number));
        note("no anode to spare, done", !spare && outcome.answer == 0 && !outcome.steps.is_empty());
        note("no anode to spare, refused", !spare && outcome.answer == 28);
        note("anode zeroed by the call and used again", outcome.steps.iter().any(|step| step.reuses));
    }

    pub fn merge(&mut self, other: &Met) {
        for (&case, &count) in &other.cases {
            *self.cases.entry(case).or_default() += count;
        }
        for (&shape, &count) in &other.shapes {
            *self.shapes.entry(shape).or_default() += count;
        }
    }

    pub fn print(&self, what: &str) {
        println!("{what}: runs given back");
        for ((given, part, way), count) in &self.cases {
            println!("{count:7} {given:?}, {part:?}: {way:?}");
        }
        println!("{what}: shrinks and removals");
        for (shape, count) in &self.shapes {
            println!("{count:7} {shape}");
        }
    }

    /// Every case and every shape was met, and no case that there is not.
    pub fn assert_all_met(&self) {
        for case in cases() {
            assert!(self.cases.contains_key(&case), "{case:?} was never met");
        }
        assert_eq!(self.cases.len(), cases().len());
        for shape in SHAPES {
            assert!(self.shapes.get(shape).is_some_and(|&count| count > 0), "{shape} was never met");
        }
    }
}

/// What a make, resize or remove that passes 20 to 26 takes and gives back, worked out on lists; nothing for another call.
pub fn worked_out(image: &[u8], tree: &Tree, call: &Call) -> Option<Outcome> {
    if tree.refusal(call, image.len() / BLOCK).is_some() {
        return None;
    }
    match call {
        Call::Make { directory, kind, name, comment, .. } => {
            let room = tree.directories.get(directory)?.has_room(entry_length(name.len(), comment.len()));
            Some(make(image, *directory, *kind == DIRECTORY, !room))
        }
        Call::Resize { directory, name, size } => {
            let node = tree.find(*directory, name)?;
            let old = node.content.len().div_ceil(BLOCK) as u64;
            let new = size.div_ceil(BLOCK as u64);
            Some(match new < old {
                true => shorten(image, node.entry.anode, (old - new) as usize),
                false => enlarge(image, node.entry.anode, new - old),
            })
        }
        Call::Remove { directory, name } => Some(dissolve(image, tree.find(*directory, name)?.entry.anode)),
        _ => None,
    }
}

/// The same of a call that gives back, and of which entry.
fn given_back<'a>(image: &[u8], tree: &'a Tree, call: &Call) -> Option<(&'a Node, Outcome)> {
    let (directory, name) = match call {
        Call::Remove { directory, name } => (directory, name),
        Call::Resize { directory, name, size } => {
            let held = tree.size(*directory, name).div_ceil(BLOCK) as u64;
            (held > size.div_ceil(BLOCK as u64)).then_some((directory, name))?
        }
        _ => return None,
    };
    Some((tree.find(*directory, name)?, worked_out(image, tree, call)?))
}

/// Where the new end of a chain lies.
fn note_end(outcome: &Outcome, chain: &[Anode], removed: bool, note: &mut impl FnMut(&'static str, bool)) {
    let steps = &outcome.steps;
    let extents = steps.iter().filter(|step| step.part != Part::Lower).count();
    let held = chain.iter().filter(|anode| anode.count > 0).count();
    let cut = steps.last().is_some_and(|step| step.given == Given::CutPiece);
    let done = outcome.answer == 0 && !removed;
    note("shrink inside an extent", done && cut);
    note("shrink at an extent's end", done && !cut && extents < held);
    note("shrink to nothing", done && !cut && extents == held);
    note("shrink over several extents", done && extents > 1);
    let crosses = steps.iter().any(|step| step.part == Part::Upper);
    note("shrink of a chain across last reserved", done && crosses);
    note("removal of a chain across last reserved", removed && outcome.answer == 0 && crosses);
}

/// What a chain that gives back is like.
fn note_chain(chain: &[Anode], node: &Node, note: &mut impl FnMut(&'static str, bool)) {
    let empty = |anode: &Anode| anode.count == 0;
    let Some(last) = chain.iter().rposition(|anode| !empty(anode)) else {
        return;
    };
    let first = chain.iter().position(|anode| !empty(anode)).unwrap_or(last);
    note("empty anode between extents", chain[first..last].iter().any(empty));
    note("empty anode behind the last extent", last + 1 < chain.len());
    note("empty head before extents", first > 0);
    let directory = node.entry.kind == Kind::Directory;
    note("removal of a directory", directory);
    note("removal of a directory of several blocks", directory && chain.len() > 1);
}
