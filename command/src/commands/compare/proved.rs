//! The experiments on the proved session program: what it served is read off its answers.
use super::experiment::{by_slot, Arrival};
use crate::failure::Failure;
use crate::session::follow::{Event, Followed};
use crate::lines::frames::{Frame, OPEN, SUBMIT, TICK};
use crate::session::program::Program;
use std::collections::BTreeMap;

const PERIOD: u64 = 4_294_967_295;
const RECORDS: u64 = 2_048;

/// So many calls are asked at a time, which fit in a pipe together: one open, which is the longest, and else submits at most.
const AT_A_TIME: usize = 128;

/// A call, and the place among the arrivals of the read that it submits.
struct Step {
    call: Frame,
    place: Option<usize>,
}

fn step(kind: u8, values: &[u64], place: Option<usize>) -> Step {
    let call = Frame::call(kind, values);
    Step { call, place }
}

/// An open, and for each slot its submits and a tick. At the last deadline nothing waits any more.
fn steps(clients: usize, arrivals: &[Arrival]) -> Vec<Step> {
    let submit = |place: usize| step(SUBMIT, &[arrivals[place].client as u64, arrivals[place].deadline], Some(place));
    let mut steps = vec![step(OPEN, &[clients as u64, PERIOD, RECORDS], None)];
    for places in by_slot(arrivals) {
        steps.extend(places.into_iter().map(submit));
        steps.push(step(TICK, &[], None));
    }
    steps
}

/// What the answers told so far.
struct Told {
    followed: Followed,
    /// The arrivals' places, by the numbers that the program gave.
    places: BTreeMap<u64, usize>,
    served: Vec<Option<u64>>,
}

/// For each arrival the slot in which the program served it, if it did.
pub fn served(clients: usize, arrivals: &[Arrival]) -> Result<Vec<Option<u64>>, Failure> {
    let mut program = Program::start()?;
    let mut told = Told {
        followed: Followed::default(),
        places: BTreeMap::new(),
        served: vec![None; arrivals.len()],
    };
    for steps in steps(clients, arrivals).chunks(AT_A_TIME) {
        let lines: Vec<Vec<u8>> = steps.iter().map(|step| step.call.line().into_bytes()).collect();
        program.ask(&lines)?;
        steps.iter().try_for_each(|step| told.take(step, &program.answers()?))?;
    }
    // Nothing more is asked, and the program is not left behind.
    program.ask_last(b"")?;
    Ok(told.served)
}

impl Told {
    fn take(&mut self, step: &Step, answers: &[Frame]) -> Result<(), Failure> {
        let events = self.followed.take(&step.call, answers);
        events.iter().try_for_each(|event| self.event(step, event))
    }

    fn event(&mut self, step: &Step, event: &Event) -> Result<(), Failure> {
        match (event, step.place) {
            (Event::Kept(read) | Event::Dropped(read, _), Some(place)) => {
                self.places.insert(read.number, place);
            }
            (Event::Served { slot, read }, None) => self.served[self.places[&read.number]] = Some(*slot),
            (Event::Opened | Event::Idle { .. }, None) => {}
            _ => return Err(Failure::Failed(format!("the session program answered `{}`: {event:?}", step.call.words()))),
        }
        Ok(())
    }
}

#[cfg(test)]
mod tests {
    use super::*;
    use crate::session::program::{length_asked, LEAST_PIPE};

    #[test]
    fn each_slot_has_its_submits_and_a_tick() {
        // The second read arrives within slot 0, and the third has no slot left.
        let arrivals = [Arrival::new(1, 0, 137), Arrival::new(0, 1, 500), Arrival::new(1, 2, 137)];
        let words: Vec<String> = steps(2, &arrivals).iter().map(|step| step.call.words()).collect();
        let expected = [
            "open clients 2 period 4294967295 records 2048",
            "submit 1 by 1",
            "tick",
            "submit 0 by 3",
            "tick",
            "tick",
        ];
        assert_eq!(words, expected);
    }

    #[test]
    fn so_many_calls_fit_in_a_pipe() {
        let length = |kind: u8, values: &[u64]| length_asked(step(kind, values, None).call.line().len());
        assert!(length(OPEN, &[0, 0, 0]) + (AT_A_TIME - 1) * length(SUBMIT, &[0, 0]) <= LEAST_PIPE);
    }
}
