//! What the calls of histories met of names that look alike (02, No. 5), counted.

use std::collections::BTreeMap;

use crate::calls::Call;
use crate::names::is_near;
use crate::tree::Tree;

/// What calls of histories can meet of names that look alike, in words.
const CASES: [&str; 12] = [
    "find by another case",
    "read by another case",
    "write by another case",
    "resize by another case",
    "remove by another case",
    "find of a name that is only near",
    "remove of a name that is only near",
    "make refused with 23, by the same bytes",
    "make refused with 23, by another case",
    "make of a name with capitals",
    "make of a name that is alike in another directory",
    "make of a name that is only near",
];

/// How often calls met each case.
#[derive(Clone, Debug, Default)]
pub struct NamesMet {
    cases: BTreeMap<String, usize>,
}

impl NamesMet {
    /// Notes a call on a disk that holds this tree.
    pub fn note(&mut self, tree: &Tree, call: &Call) {
        let (directory, name) = match call {
            Call::Find { directory, name }
            | Call::Read { directory, name, .. }
            | Call::Write { directory, name, .. }
            | Call::Resize { directory, name, .. }
            | Call::Remove { directory, name }
            | Call::Make { directory, name, .. } => (directory, name),
            _ => return,
        };
        let Some(names) = tree.directories.get(directory) else {
            return;
        };
        let mut note = |case: &str, there| {
            *self.cases.entry(format!("{} {case}", call.label())).or_default() += usize::from(there);
        };
        let same = names.find(name).is_some_and(|node| node.entry.name == *name);
        let other_case = names.find(name).is_some() && !same;
        let only_near =
            names.find(name).is_none() && names.nodes().any(|node| is_near(&node.entry.name, name));
        if !matches!(call, Call::Make { .. }) {
            note("by another case", other_case);
            note("of a name that is only near", only_near);
            return;
        }
        match tree.refusal(call, 0) {
            Some(23) => {
                note("refused with 23, by the same bytes", same);
                note("refused with 23, by another case", other_case);
            }
            None => {
                let others = tree.directories.iter().filter(|(number, _)| *number != directory);
                note("of a name with capitals", name.iter().any(u8::is_ascii_uppercase));
                note(
                    "of a name that is alike in another directory",
                    others.flat_map(|(_, other)| other.find(name)).any(|node| node.entry.name != *name),
                );
                note("of a name that is only near", only_near);
            }
            Some(_) => {}
        }
    }

    pub fn merge(&mut self, other: &NamesMet) {
        for (case, count) in &other.cases {
            *self.cases.entry(case.clone()).or_default() += count;
        }
    }

    pub fn print(&self, what: &str) {
        println!("{what}: names");
        for (case, count) in &self.cases {
            println!("{count:7} {case}");
        }
    }

    pub fn assert_all_met(&self) {
        for case in CASES {
            assert!(self.cases.get(case).is_some_and(|&count| count > 0), "{case} was never met");
        }
    }
}
