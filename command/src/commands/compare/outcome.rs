//! What became of an experiment's reads under each policy.
use super::experiment::{Arrival, Experiment, SLOT};
use super::policy::{Policy, POLICIES};
use super::{proved, simulated};
use crate::failure::Failure;
use crate::numbers::share;
use std::fmt::{self, Display, Formatter};

/// A read and the slot in which it was served, if it was.
#[derive(Clone, Copy)]
pub struct Outcome {
    pub arrival: Arrival,
    pub served: Option<u64>,
}

impl Outcome {
    /// A slot ends with the start of the next, and a deadline is met by what ends no later.
    fn is_in_time(&self) -> bool {
        self.served.is_some_and(|slot| slot < self.arrival.deadline)
    }

    /// From its arrival to the end of its slot, in microseconds, where it was served, in time or late.
    pub fn response(&self) -> Option<u64> {
        self.served.map(|slot| (slot + 1) * SLOT - self.arrival.time)
    }
}

/// Served in time to arrived.
#[derive(Clone, Copy, Debug, Default, PartialEq, Eq)]
pub struct Success {
    pub in_time: u64,
    pub arrived: u64,
}

impl Success {
    pub fn of<'a>(outcomes: impl Iterator<Item = &'a Outcome>) -> Success {
        let mut success = Success::default();
        for outcome in outcomes {
            success.arrived += 1;
            success.in_time += u64::from(outcome.is_in_time());
        }
        success
    }

    /// As fractions, without rounding.
    fn is_less(&self, other: &Success) -> bool {
        self.in_time * other.arrived < other.in_time * self.arrived
    }

    /// To be drawn.
    pub fn ratio(&self) -> f64 {
        self.in_time as f64 / self.arrived.max(1) as f64
    }
}

impl Display for Success {
    fn fmt(&self, f: &mut Formatter) -> fmt::Result {
        f.pad(&share(self.in_time, self.arrived))
    }
}

/// An experiment under one policy.
pub struct Run {
    pub policy: Policy,
    pub outcomes: Vec<Outcome>,
    /// One a client.
    pub clients: Vec<Success>,
    pub system: Success,
}

impl Run {
    pub fn new(policy: Policy, clients: usize, outcomes: Vec<Outcome>) -> Run {
        let of_client = |client| Success::of(outcomes.iter().filter(|outcome| outcome.arrival.client == client));
        Run {
            policy,
            clients: (0..clients).map(of_client).collect(),
            system: Success::of(outcomes.iter()),
            outcomes,
        }
    }

    /// The client that fares worst, the first of those that fare alike.
    pub fn worst(&self) -> usize {
        let worse = |worst: usize, client: usize| if self.clients[client].is_less(&self.clients[worst]) { client } else { worst };
        (0..self.clients.len()).fold(0, worse)
    }
}

/// An experiment under each policy.
pub struct Comparison {
    pub experiment: &'static Experiment,
    pub runs: Vec<Run>,
}

impl Comparison {
    pub fn of(experiment: &'static Experiment) -> Result<Comparison, Failure> {
        let arrivals = experiment.arrivals();
        let run = |policy: Policy| -> Result<Run, Failure> {
            let served = match policy {
                Policy::Queue => proved::served(experiment.clients.len(), &arrivals)?,
                _ => simulated::served(policy, &arrivals),
            };
            let outcomes = arrivals.iter().zip(served).map(|(&arrival, served)| Outcome { arrival, served });
            Ok(Run::new(policy, experiment.clients.len(), outcomes.collect()))
        };
        let runs = POLICIES.into_iter().map(run).collect::<Result<_, _>>()?;
        Ok(Comparison { experiment, runs })
    }

    /// How many reads arrived.
    pub fn reads(&self) -> u64 {
        self.runs.first().map_or(0, |run| run.system.arrived)
    }
}

#[cfg(test)]
mod tests {
    use super::*;

    fn outcome(client: usize, time: u64, served: Option<u64>) -> Outcome {
        let arrival = Arrival::new(client, time, 500);
        Outcome { arrival, served }
    }

    #[test]
    fn a_slot_that_ends_with_the_deadline_is_in_time() {
        // The deadline is 3: slot 2 ends by it, and slot 3 begins with it.
        assert_eq!([Some(2), Some(3), None].map(|served| outcome(0, 0, served).is_in_time()), [true, false, false]);
    }

    #[test]
    fn the_response_lasts_from_the_arrival_to_the_slot_s_end() {
        assert_eq!(outcome(0, 100, Some(1)).response(), Some(2 * 137 - 100));
        assert_eq!(outcome(0, 100, None).response(), None);
    }

    #[test]
    fn the_worst_client_has_the_least_ratio_and_is_the_first_of_equals() {
        let success = |in_time, arrived| Success { in_time, arrived };
        let run = Run {
            policy: Policy::Queue,
            outcomes: vec![],
            clients: vec![success(3, 4), success(2, 3), success(4, 6), success(1, 1)],
            system: success(10, 14),
        };
        assert_eq!(run.worst(), 1);
    }
}
