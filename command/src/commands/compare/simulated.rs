//! The policies that the queue is compared with. They are simulated here, simply, and nothing is proved of them.
use super::experiment::{by_slot, Arrival};
use super::policy::Policy;
use std::collections::BTreeSet;

struct Simulation<'a> {
    policy: Policy,
    arrivals: &'a [Arrival],
    /// The waiting reads in chart order: by deadline, and then by their place among the arrivals.
    waiting: BTreeSet<(u64, usize)>,
    clock: u64,
    /// For each arrival the slot in which it was served, if it was.
    served: Vec<Option<u64>>,
}

/// For each arrival the slot in which this policy serves it, if it does. It goes on until nothing waits.
pub fn served(policy: Policy, arrivals: &[Arrival]) -> Vec<Option<u64>> {
    let mut simulation = Simulation {
        policy,
        arrivals,
        waiting: BTreeSet::new(),
        clock: 0,
        served: vec![None; arrivals.len()],
    };
    for places in by_slot(arrivals) {
        simulation.pass_slot(&places);
    }
    simulation.pass_rest();
    simulation.served
}

impl Simulation<'_> {
    fn pass_slot(&mut self, places: &[usize]) {
        for &place in places {
            self.submit(place);
        }
        self.tick();
    }

    fn pass_rest(&mut self) {
        while !self.waiting.is_empty() {
            self.tick();
        }
    }

    fn submit(&mut self, place: usize) {
        let new = (self.arrivals[place].deadline, place);
        self.waiting.insert(new);
        if self.policy == Policy::NewcomerDropped && !self.all_can_finish() {
            self.waiting.remove(&new);
        }
    }

    /// Whether each waiting read ends by its deadline where they are served in chart order, one a slot.
    fn all_can_finish(&self) -> bool {
        let ends = self.clock + 1..;
        self.waiting.iter().zip(ends).all(|(&(deadline, _), end)| end <= deadline)
    }

    fn tick(&mut self) {
        if self.policy == Policy::PrudentEdf {
            // What has a deadline after the clock can still be served in the slot that starts now.
            self.waiting = self.waiting.split_off(&(self.clock + 1, 0));
        }
        if let Some((_, place)) = self.waiting.pop_first() {
            self.served[place] = Some(self.clock);
        }
        self.clock += 1;
    }
}

#[cfg(test)]
mod tests {
    use super::*;

    /// Reads that are submitted at these clocks, with these deadlines.
    fn reads(reads: &[(u64, u64)]) -> Vec<Arrival> {
        let arrival = |&(clock, deadline)| Arrival {
            client: 0,
            time: 0,
            clock,
            deadline,
        };
        reads.iter().map(arrival).collect()
    }

    #[test]
    fn edf_serves_late_what_is_late_and_the_next_too() {
        let reads = reads(&[(0, 1), (0, 1), (0, 2)]);
        assert_eq!(served(Policy::Edf, &reads), [Some(0), Some(1), Some(2)]);
    }

    #[test]
    fn edf_goes_by_deadline_and_then_by_submission() {
        let reads = reads(&[(0, 4), (0, 2), (0, 2), (1, 2)]);
        assert_eq!(served(Policy::Edf, &reads), [Some(3), Some(0), Some(1), Some(2)]);
    }

    #[test]
    fn prudent_edf_discards_what_the_coming_slot_is_too_late_for() {
        let reads = reads(&[(0, 1), (0, 1), (0, 2)]);
        assert_eq!(served(Policy::PrudentEdf, &reads), [Some(0), None, Some(1)]);
    }

    #[test]
    fn prudent_edf_lets_a_newcomer_push_out_what_waits() {
        // From clock 1 on, two slots are left for the last three. The newcomer's deadline is the earliest of them.
        let reads = reads(&[(0, 3), (0, 3), (0, 3), (1, 2)]);
        assert_eq!(served(Policy::PrudentEdf, &reads), [Some(0), Some(2), None, Some(1)]);
        assert_eq!(served(Policy::NewcomerDropped, &reads), [Some(0), Some(1), Some(2), None]);
    }

    #[test]
    fn the_newcomer_is_dropped_where_not_all_can_finish() {
        // Prudent-EDF serves the third, which has the earliest deadline, and loses the second.
        let reads = reads(&[(0, 2), (0, 2), (0, 1)]);
        assert_eq!(served(Policy::NewcomerDropped, &reads), [Some(0), Some(1), None]);
        assert_eq!(served(Policy::PrudentEdf, &reads), [Some(1), None, Some(0)]);
    }

    #[test]
    fn the_newcomer_is_dropped_for_a_later_deadline_that_it_makes_overfull() {
        // By itself the third could be served by 2, but then one of those by 3 could not.
        let reads = reads(&[(1, 3), (1, 3), (1, 2), (2, 4)]);
        assert_eq!(served(Policy::NewcomerDropped, &reads), [Some(1), Some(2), None, Some(3)]);
    }

    #[test]
    fn what_is_never_submitted_is_never_served() {
        let reads = reads(&[(1, 1), (0, 1)]);
        assert_eq!(served(Policy::Edf, &reads), [None, Some(0)]);
    }
}
