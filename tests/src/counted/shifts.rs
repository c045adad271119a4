//! The shifts of document 02 beside the records that waited before each submit: whether they are right, and how often each case came,
//! so that a test in which one never came can fail.
use crate::model::calls::{DROPPED, KEPT};
use crate::model::tables::{Request, RECORDS};
use crate::model::Call;
use std::cmp::Ordering;
use std::fmt::{Display, Formatter, Result as Written};

// The last record of the largest table, with all others behind it.
pub const MOST_SHIFT: u64 = *RECORDS.end() as u64 - 1;

// A submit that was accepted.
struct Submit {
    waiting: u64,
    shift: u64,
    // before the new one in chart order, the new one itself, or behind it
    victim: Option<Ordering>,
}

type Case = (&'static str, fn(&Submit) -> bool);

const CASES: [Case; 6] = [
    ("none behind", |submit| submit.shift == 0 && submit.waiting > 0),
    ("some behind", |submit| submit.shift > 0 && submit.shift < submit.waiting),
    ("every one behind", |submit| {
        submit.shift == submit.waiting && submit.waiting > 0
    }),
    ("victim before", |submit| submit.victim == Some(Ordering::Less)),
    ("victim behind", |submit| submit.victim == Some(Ordering::Greater)),
    ("itself the victim and some behind", |submit| {
        submit.victim == Some(Ordering::Equal) && submit.shift > 0
    }),
];

#[derive(Default)]
pub struct Shifts {
    times: [u64; CASES.len()],
    largest: u64,
}

impl Shifts {
    // One call more, with the records that waited before it, in any order.
    pub fn count(&mut self, waiting: &[Request], call: &Call, answer: &[u64]) -> Result<(), String> {
        let &Call::Submit { deadline, .. } = call else { return Ok(()) };
        let (victim, shift) = match *answer {
            [KEPT, _, place, shift] => {
                hold("place and shift together", waiting.len() as u64, place + shift)?;
                (None, shift)
            }
            [DROPPED, number, victim, _, shift] => (side(waiting, deadline, number, victim), shift),
            _ => return Ok(()),
        };
        // The new number is the largest, so that only those with later deadlines stand behind it.
        let later = waiting.iter().filter(|request| request.deadline > deadline).count();
        hold("the shift", later as u64, shift)?;
        let submit = Submit {
            waiting: waiting.len() as u64,
            shift,
            victim,
        };
        for (times, (_, is_so)) in self.times.iter_mut().zip(CASES) {
            *times += u64::from(is_so(&submit));
        }
        self.largest = self.largest.max(shift);
        Ok(())
    }

    // What did not come, with a shift as large as this.
    pub fn missing(&self, large: u64) -> Vec<String> {
        let cases = CASES.iter().zip(self.times).filter(|(_, times)| *times == 0);
        let cases = cases.map(|((name, _), _)| format!("no submit with {name}"));
        cases
            .chain((self.largest < large).then(|| format!("no shift of {large}")))
            .collect()
    }
}

impl Display for Shifts {
    fn fmt(&self, f: &mut Formatter) -> Written {
        let times = CASES
            .iter()
            .zip(self.times)
            .map(|((name, _), times)| format!("{name} {times}"));
        write!(
            f,
            "shifts: {}, largest {}",
            times.collect::<Vec<_>>().join(", "),
            self.largest
        )
    }
}

fn hold(what: &str, expected: u64, came: u64) -> Result<(), String> {
    let told = || format!("{what}: expected {expected}, came {came}");
    (came == expected).then_some(()).ok_or_else(told)
}

// Where the victim stood beside the new request; of two records with its number the first is taken.
fn side(waiting: &[Request], deadline: u64, number: u64, victim: u64) -> Option<Ordering> {
    if victim == number {
        return Some(Ordering::Equal);
    }
    let record = waiting.iter().find(|request| request.number == victim)?;
    // Of equal deadlines the new one stands last.
    Some(record.deadline.cmp(&deadline).then(Ordering::Less))
}
