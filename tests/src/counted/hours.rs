//! The inspection hours of document 02: how often each case of them came, so that a test in which one never came can fail.
use crate::model::calls::{CLOSED, DROPPED, IDLE, KEPT, SERVED};
use crate::model::tables::{Request, Setup, TO_THE_END};
use crate::model::{Call, Week};
use std::fmt::{Display, Formatter, Result as Written};

// What was before a call; what waits comes in any order.
pub struct Before<'a> {
    pub setup: Setup,
    pub week: Week,
    pub clock: u64,
    pub waiting: &'a [Request],
}

// A call with its answer, and the segments of a chart.
struct Made<'a> {
    before: &'a Before<'a>,
    call: &'a Call,
    answer: &'a [u64],
    segments: &'a [(u64, u64)],
}

type Case = (&'static str, fn(&Made) -> bool);

const CASES: [Case; 8] = [
    ("closed tick with reads waiting", |made| {
        made.is(CLOSED) && !made.before.waiting.is_empty()
    }),
    ("closed tick with none waiting", |made| {
        made.is(CLOSED) && made.before.waiting.is_empty()
    }),
    ("closed tick that starts a period", |made| {
        made.is(CLOSED) && (made.before.clock + 1).is_multiple_of(made.before.setup.period)
    }),
    ("closed tick behind the first week", |made| {
        made.is(CLOSED) && made.is_behind_the_first_week()
    }),
    ("open tick behind a first week with closed hours", |made| {
        (made.is(IDLE) || made.is(SERVED)) && made.is_behind_the_first_week() && made.has_closed_hours()
    }),
    (
        "read kept with a deadline in a closed hour",
        |made| matches!(made.call, Call::Submit { deadline, .. } if made.is(KEPT) && !made.before.week.is_open(deadline - 1)),
    ),
    ("drop because of closed slots", |made| made.is_drop_because_of_closed_slots()),
    ("segment over closed slots", |made| {
        let is_closed = |slot: u64| !made.before.week.is_open(slot);
        made.segments.iter().any(|&(left, right)| (left..right).any(is_closed))
    }),
];

const CHANGE: &str = "tick from an open hour to a closed one or back";

// At most so many slots before the clock's end.
const NEAR: u64 = 1_000;

impl Made<'_> {
    fn is(&self, kind: u64) -> bool {
        self.answer[0] == kind
    }

    fn is_near_the_end(&self) -> bool {
        self.before.clock + NEAR >= *TO_THE_END.end()
    }

    // A tick that ends an hour, with the next one closed where this was open, or open where this was closed.
    fn is_change(&self) -> bool {
        let Before { setup, week, clock, .. } = self.before;
        let is_tick = [SERVED, IDLE, CLOSED].contains(&self.answer[0]);
        is_tick && (clock + 1).is_multiple_of(setup.slots_per_hour) && week.is_open(*clock) != week.is_open(clock + 1)
    }

    fn is_behind_the_first_week(&self) -> bool {
        self.before.clock / self.before.setup.slots_per_hour >= 168
    }

    fn has_closed_hours(&self) -> bool {
        let first_slots = (0..168).map(|hour| hour * self.before.setup.slots_per_hour);
        first_slots.into_iter().any(|slot| !self.before.week.is_open(slot))
    }

    // If all slots were open, every one could finish.
    fn is_drop_because_of_closed_slots(&self) -> bool {
        let &Call::Submit { deadline, .. } = self.call else {
            return false;
        };
        if !self.is(DROPPED) {
            return false;
        }
        let waiting = self.before.waiting.iter().map(|request| request.deadline);
        let mut deadlines: Vec<u64> = waiting.chain([deadline]).collect();
        deadlines.sort();
        (self.before.clock..).zip(deadlines).all(|(slot, deadline)| slot < deadline)
    }
}

// Slots an hour, and how many hours are open, that have to come.
pub const SLOTS: [u64; 7] = [1, 2, 3, 7, 360, 3_600, 360_000];

type Open = (&'static str, fn(usize) -> bool);

const OPEN: [Open; 5] = [
    ("one hour", |count| count == 1),
    ("few hours", |count| (2..40).contains(&count)),
    ("many hours", |count| (40..167).contains(&count)),
    ("all hours but one", |count| count == 167),
    ("all hours", |count| count == 168),
];

// Where so many slots an hour stand among these.
fn row(slots_per_hour: u64) -> Option<usize> {
    SLOTS.iter().position(|&slots| slots == slots_per_hour)
}

// How often each case came.
type Times = [u64; CASES.len()];

#[derive(Default)]
pub struct Hours {
    times: Times,
    // those of them with the clock near its end
    near_the_end: Times,
    // of each number of slots, how often so many hours were open
    opens: [[u64; OPEN.len()]; SLOTS.len()],
    // of each number of slots, how often a tick led from an open hour to a closed one, or back
    changes: [u64; SLOTS.len()],
}

impl Hours {
    // One call more, on sound tables.
    pub fn count(&mut self, before: &Before, call: &Call, answer: &[u64], segments: &[(u64, u64)]) {
        let made = Made {
            before,
            call,
            answer,
            segments,
        };
        let came = CASES.map(|(_, is_so)| u64::from(is_so(&made)));
        add(&mut self.times, &came);
        if made.is_near_the_end() {
            add(&mut self.near_the_end, &came);
        }
        if let Some(row) = row(before.setup.slots_per_hour) {
            self.changes[row] += u64::from(made.is_change());
        }
    }

    // A queue more, with these hours.
    pub fn open(&mut self, setup: &Setup, week: &Week) {
        let first_slots = (0..168).map(|hour| hour * setup.slots_per_hour);
        let count = first_slots.filter(|&slot| week.is_open(slot)).count();
        let Some(row) = row(setup.slots_per_hour) else { return };
        for (times, (_, is_so)) in self.opens[row].iter_mut().zip(OPEN) {
            *times += u64::from(is_so(count));
        }
    }

    // What hours did not come, though all have to.
    pub fn missing_opens(&self) -> Vec<String> {
        let mut missing = vec![];
        for (opens, slots) in self.opens.iter().zip(SLOTS) {
            let never = opens.iter().zip(OPEN).filter(|(times, _)| **times == 0);
            missing.extend(never.map(|(_, (name, _))| format!("never {name} open of {slots} slots each")));
        }
        missing
    }

    // Of which of these numbers of slots no tick led from an open hour to a closed one, or back.
    pub fn missing_changes(&self, slots: &[u64]) -> Vec<String> {
        let is_missing = |of: &&u64| row(**of).is_none_or(|row| self.changes[row] == 0);
        let missing = slots.iter().filter(is_missing);
        missing.map(|of| format!("no {CHANGE}, of {of} slots each")).collect()
    }

    // What did not come.
    pub fn missing(&self) -> Vec<String> {
        never(&self.times).map(|name| format!("no {name}")).collect()
    }

    // How often each case came with the clock near its end. In a session, which begins at clock 0, none does.
    pub fn near_the_end(&self) -> String {
        format!("near the clock's end: {}", listed(names(), &self.near_the_end))
    }

    // What did not come with the clock near its end.
    pub fn missing_near_the_end(&self) -> Vec<String> {
        never(&self.near_the_end)
            .map(|name| format!("near the clock's end no {name}"))
            .collect()
    }
}

fn add(times: &mut Times, came: &Times) {
    times.iter_mut().zip(came).for_each(|(times, came)| *times += came);
}

fn never(times: &Times) -> impl Iterator<Item = &'static str> + '_ {
    let never = names().into_iter().zip(times).filter(|(_, times)| **times == 0);
    never.map(|(name, _)| name)
}

impl Display for Hours {
    fn fmt(&self, f: &mut Formatter) -> Written {
        let of = SLOTS.map(|slots| format!("{slots}:"));
        writeln!(f, "hours: {}", listed(names(), &self.times))?;
        write!(f, "{CHANGE}, by slots an hour: {}", listed(of, &self.changes))
    }
}

fn names() -> [&'static str; CASES.len()] {
    CASES.map(|(name, _)| name)
}

fn listed(names: impl IntoIterator<Item = impl Display>, times: &[u64]) -> String {
    let times = names.into_iter().zip(times).map(|(name, times)| format!("{name} {times}"));
    times.collect::<Vec<_>>().join(", ")
}
