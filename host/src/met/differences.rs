//! What comparisons met of 02, No. 7: how often each kind of difference, and each field in which entries differed.

use std::collections::BTreeMap;

use crate::differences::{COMMENT, NAME, PROTECTION, SIZE, STAMPS, TYPE};
use crate::pairs::Numbers;

/// How often each was met.
#[derive(Default)]
pub struct DifferencesMet {
    pub counts: BTreeMap<&'static str, usize>,
}

impl DifferencesMet {
    pub fn note(&mut self, difference: &Numbers) {
        let [kind, _, _, fields, byte, many] = *difference;
        for (what, met) in [
            ("only in the first", kind == 1),
            ("only in the second", kind == 2),
            ("type", fields & TYPE != 0),
            ("name", fields & NAME != 0),
            ("comment", fields & COMMENT != 0),
            ("stamps", fields & STAMPS != 0),
            ("protection", fields & PROTECTION != 0),
            ("size", fields & SIZE != 0),
            ("bytes alone", fields == 0 && many > 0),
            ("fields alone", kind == 3 && many == 0),
            ("bytes from the first on", byte == 0 && many > 0),
            ("bytes behind the first", byte > 0),
        ] {
            *self.counts.entry(what).or_default() += usize::from(met);
        }
    }

    /// Each was met more often than so.
    pub fn assert_each(&self, least: usize) {
        assert!(self.counts.values().all(|&count| count > least), "{:?}", self.counts);
    }
}
