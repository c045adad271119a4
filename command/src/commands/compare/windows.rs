//! A run over time: the reads of a client by when they arrived.
use super::outcome::{Outcome, Run, Success};

/// So long, in microseconds, is what one point of a figure sums up: one burst of the first experiment's second client.
pub const WINDOW: u64 = 10_000;
/// So long is shown of a run, as in the paper.
pub const SHOWN: u64 = 200_000;

/// A client's outcomes by the window in which the read arrived.
fn windows(run: &Run, client: usize) -> Vec<Vec<Outcome>> {
    let mut windows = vec![vec![]; (SHOWN / WINDOW) as usize];
    for outcome in run.outcomes.iter().filter(|outcome| outcome.arrival.client == client) {
        if let Some(window) = windows.get_mut((outcome.arrival.time / WINDOW) as usize) {
            window.push(*outcome);
        }
    }
    windows
}

/// Of the reads that arrived in each window, how many were served in time; nothing where none arrived.
pub fn success(run: &Run, client: usize) -> Vec<Option<Success>> {
    let of_window = |outcomes: Vec<Outcome>| Some(Success::of(outcomes.iter())).filter(|success| success.arrived > 0);
    windows(run, client).into_iter().map(of_window).collect()
}

/// The average response, in microseconds, of the reads that arrived in each window and were served; nothing where none was.
pub fn response(run: &Run, client: usize) -> Vec<Option<u64>> {
    let of_window = |outcomes: Vec<Outcome>| {
        let responses: Vec<u64> = outcomes.iter().filter_map(Outcome::response).collect();
        responses.iter().sum::<u64>().checked_div(responses.len() as u64)
    };
    windows(run, client).into_iter().map(of_window).collect()
}

#[cfg(test)]
mod tests {
    use super::*;
    use crate::commands::compare::experiment::Arrival;
    use crate::commands::compare::policy::Policy;

    /// Reads of client 0 with a bound of three slots, and one of client 1 which is not to be counted.
    fn run() -> Run {
        let outcome = |client, time, served| Outcome {
            arrival: Arrival::new(client, time, 411),
            served,
        };
        let outcomes = vec![
            outcome(0, 0, Some(0)),
            outcome(0, 9_999, Some(99)),
            outcome(1, 10_000, Some(73)),
            outcome(0, 20_000, None),
            outcome(0, 200_000, Some(1_460)),
        ];
        Run::new(Policy::Edf, 2, outcomes)
    }

    #[test]
    fn success_is_by_the_window_of_the_arrival() {
        let success = success(&run(), 0);
        let of = |in_time, arrived| Some(Success { in_time, arrived });
        assert_eq!(success.len(), 20);
        assert_eq!(success[..4], [of(1, 2), None, of(0, 1), None]);
    }

    #[test]
    fn response_is_the_average_of_what_was_served() {
        // The first takes a slot, 137 µs, and the second, which is late, 13,700 - 9,999 = 3,701 µs.
        assert_eq!(response(&run(), 0)[..4], [Some((137 + 3_701) / 2), None, None, None]);
    }
}
