//! The largest plan, by augmenting paths.
use super::hours::Week;
use std::collections::{BTreeMap, BTreeSet};

// "A plan gives some of the list's requests one slot each, no slot to two of them, each slot at least the clock at that
// request's submission and ended by its deadline." "A plan, likewise, may use open slots only." Requests come one by one, and for
// each an augmenting path is looked for: a free slot, with moves of others that lead to it. Those that have a slot keep one, and
// one for which there is no path gets none later either, so that after each request the plan is a largest one.
pub struct Plan {
    week: Week,
    // the open slots before this one, from the first clock on
    open: Vec<u64>,
    looked_at: u64,
    // the clock at the submission and the deadline, a request
    requests: Vec<(u64, u64)>,
    // which request has the slot
    slots: BTreeMap<u64, usize>,
}

impl Plan {
    pub fn within(week: Week) -> Plan {
        Plan {
            week,
            open: vec![],
            looked_at: 0,
            requests: vec![],
            slots: BTreeMap::new(),
        }
    }

    pub fn add(&mut self, clock: u64, deadline: u64) {
        if self.looked_at < deadline {
            let week = self.week;
            self.open
                .extend((self.looked_at..deadline).filter(|&slot| week.is_open(slot)));
            self.looked_at = deadline;
        }
        self.requests.push((clock, deadline));
        self.find_slot(self.requests.len() - 1, &mut BTreeSet::new());
    }

    // Looks for a slot that is free, or whose request can be moved to another slot, which is looked for likewise. Each slot is
    // tried once. "Slot s is ended by deadline D if s + 1 is at most D."
    fn find_slot(&mut self, request: usize, tried: &mut BTreeSet<u64>) -> bool {
        let (clock, deadline) = self.requests[request];
        let places = [clock, deadline].map(|end| self.open.partition_point(|&slot| slot < end));
        for place in places[0]..places[1] {
            let slot = self.open[place];
            let holder = self.slots.get(&slot).copied();
            if tried.insert(slot) && holder.is_none_or(|holder| self.find_slot(holder, tried)) {
                self.slots.insert(slot, request);
                return true;
            }
        }
        false
    }

    // "It has as many requests as it gives slots"
    pub fn size(&self) -> usize {
        self.slots.len()
    }

    // The same requests from nothing, the last first.
    pub fn backwards(&self) -> Plan {
        let mut plan = Plan::within(self.week);
        for &(clock, deadline) in self.requests.iter().rev() {
            plan.add(clock, deadline);
        }
        plan
    }
}
