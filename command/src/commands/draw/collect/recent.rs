//! The last slots of a session, one by one.
use crate::session::follow::Read;
use std::collections::{BTreeMap, VecDeque};

/// No more are kept, however many pass.
pub const MOST_SLOTS: usize = 2_000;

#[derive(Debug, Default)]
pub struct Slot {
    /// The slot that comes has not.
    pub has_passed: bool,
    pub is_closed: bool,
    pub served: Vec<Read>,
    /// How many reads of a client were dropped while this was the slot that comes.
    pub dropped: BTreeMap<u64, u64>,
}

#[derive(Default)]
pub struct Recent {
    pub first: u64,
    pub slots: VecDeque<Slot>,
}

impl Recent {
    /// A slot, which is one of the last or comes behind them.
    pub fn at(&mut self, slot: u64) -> &mut Slot {
        while self.end() <= slot {
            self.add();
        }
        let first = self.first;
        &mut self.slots[(slot - first) as usize]
    }

    fn add(&mut self) {
        self.slots.push_back(Slot::default());
        if self.slots.len() > MOST_SLOTS {
            self.slots.pop_front();
            self.first += 1;
        }
    }

    /// The slot behind the last.
    pub fn end(&self) -> u64 {
        self.first + self.slots.len() as u64
    }
}

#[cfg(test)]
mod tests {
    use super::*;

    #[test]
    fn the_last_slots_are_kept() {
        let mut recent = Recent::default();
        for slot in 0..5_000 {
            recent.at(slot).has_passed = slot % 2 == 0;
        }
        assert_eq!((recent.first, recent.end(), recent.slots.len()), (3_000, 5_000, MOST_SLOTS));
        assert!(recent.at(4_998).has_passed && !recent.at(4_999).has_passed);
    }
}
