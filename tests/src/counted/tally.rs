//! How often each answer came, so that a test in which one never came can fail.
use crate::model::REFUSED;
use std::collections::BTreeMap;
use std::fmt::{Display, Formatter, Result};

#[derive(Default)]
pub struct Tally {
    kinds: BTreeMap<u64, u64>,
    refusals: BTreeMap<u64, u64>,
}

impl Tally {
    // An answer is its kind and its values.
    pub fn count(&mut self, answer: &[u64]) {
        match *answer {
            [REFUSED, number] => *self.refusals.entry(number).or_default() += 1,
            [kind, ..] => *self.kinds.entry(kind).or_default() += 1,
            [] => {}
        }
    }

    pub fn refused(&self, number: u64) -> u64 {
        self.refusals.get(&number).copied().unwrap_or_default()
    }

    // What of these did not come; nothing if all did.
    pub fn missing(&self, kinds: &[u64], refusals: &[u64]) -> Vec<String> {
        let kinds = kinds.iter().filter(|kind| !self.kinds.contains_key(kind));
        let refusals = refusals.iter().filter(|&&number| self.refused(number) == 0);
        kinds
            .map(|kind| format!("no answer {kind:02X}"))
            .chain(refusals.map(|number| format!("no refusal {number}")))
            .collect()
    }
}

impl Display for Tally {
    fn fmt(&self, f: &mut Formatter) -> Result {
        let kinds = self.kinds.iter().map(|(kind, times)| format!("{kind:02X} {times}"));
        let refusals = self.refusals.iter().map(|(number, times)| format!("{number} {times}"));
        let list = |of: Vec<String>| of.join(", ");
        write!(
            f,
            "answers: {}\nrefusals: {}",
            list(kinds.collect()),
            list(refusals.collect())
        )
    }
}
