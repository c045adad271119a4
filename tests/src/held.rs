//! The exported calls held to the model: after each call its answer, the head, every record of both tables and the output.
use crate::calls;
use crate::counted::hours::{Before, Hours};
use crate::counted::shifts::Shifts;
use crate::counted::tally::Tally;
use crate::model::calls::{CHART, OPENED};
use crate::model::tables::{Head, Request};
use crate::model::{Answer, Call, Counts, Fault, Queue, Week, REFUSED};
use crate::tables::{Client, Tables, Values, WIDTH};
use std::fmt::Debug;

// What stands in values and in outputs before a call, and is no number that one writes.
const UNWRITTEN: u64 = 0xA5A5_A5A5_A5A5_A5A5;

// The tables as the model takes them.
pub fn queue_of(tables: &Tables) -> Queue {
    let counts = tables.clients().iter().map(|client| Counts {
        submitted: client.submitted.into(),
        served: client.served.into(),
        dropped: client.dropped.into(),
    });
    Queue {
        head: tables.head,
        hours: tables.hours,
        records: tables.waiting.clone(),
        clients: counts.collect(),
        odd_numbers: tables.client_numbers.len() % WIDTH,
        fault: Fault::None,
    }
}

// Writes what the model holds over the tables that it was taken from; numbers behind the last whole record stay.
fn write(queue: &Queue, tables: &mut Tables) {
    tables.head = queue.head;
    tables.hours = queue.hours;
    tables.waiting.copy_from_slice(&queue.records);
    for (client, counts) in tables.clients_mut().iter_mut().zip(&queue.clients) {
        *client = Client {
            submitted: counts.submitted as u32,
            served: counts.served as u32,
            dropped: counts.dropped as u32,
        };
    }
}

// An output for the call, and a place for its answer's values.
fn lent_for(call: &Call) -> (Vec<u64>, Values) {
    let entries = if let Call::Chart { entries } = call { *entries } else { 0 };
    (vec![UNWRITTEN; entries], [UNWRITTEN; 5])
}

// Makes the exported call.
fn make(tables: &mut Tables, call: &Call, output: &mut [u64], values: &mut Values) -> u64 {
    match *call {
        Call::Open { setup, hours } => calls::open(tables, &setup, &hours, values),
        Call::Submit { client, deadline } => calls::submit(tables, client, deadline, values),
        Call::Tick => calls::tick(tables, values),
        Call::Report { client } => calls::report(tables, client, values),
        Call::Chart { .. } => calls::chart(tables, output, values),
    }
}

pub struct Held {
    lent: Tables,
    expected: Tables,
    queue: Queue,
    // whether the model has fallen behind the lent tables
    is_behind: bool,
    // calls made, and those of them that were held to the model
    pub made: u64,
    pub held: u64,
    pub tally: Tally,
    pub shifts: Shifts,
    pub hours: Hours,
}

impl Held {
    pub fn over(tables: &Tables) -> Held {
        Held {
            lent: tables.clone(),
            expected: tables.clone(),
            queue: queue_of(tables),
            is_behind: false,
            made: 0,
            held: 0,
            tally: Tally::default(),
            shifts: Shifts::default(),
            hours: Hours::default(),
        }
    }

    // Other tables for the calls that follow.
    pub fn lend(&mut self, tables: &Tables) {
        self.lent.clone_from(tables);
        self.catch_up();
    }

    fn catch_up(&mut self) {
        self.expected.clone_from(&self.lent);
        self.queue = queue_of(&self.lent);
        self.is_behind = false;
    }

    pub fn tables(&self) -> &Tables {
        &self.lent
    }

    // Makes the call without the model.
    pub fn make_alone(&mut self, call: &Call) {
        let (mut output, mut values) = lent_for(call);
        let kind = make(&mut self.lent, call, &mut output, &mut values);
        self.tally.count(&calls::answer(kind, &values));
        self.made += 1;
        self.is_behind = true;
    }

    // Makes the call both ways. The answer, or what differs.
    pub fn call(&mut self, call: &Call) -> Result<Answer, String> {
        if self.is_behind {
            self.catch_up();
        }
        let (mut output, mut values) = lent_for(call);
        let (mut drawn, mut expected) = lent_for(call);
        let before = (self.queue.head, self.queue.week(), self.queue.waiting().to_vec());
        let kind = make(&mut self.lent, call, &mut output, &mut values);
        let answer = self.queue.make(call, &mut drawn);
        write(&self.queue, &mut self.expected);
        self.made += 1;
        self.held += 1;
        self.tally.count(&answer);
        // those beyond the answer's values stay
        expected[..answer.len() - 1].copy_from_slice(&answer[1..]);
        let is_same = kind == answer[0] && values == expected && output == drawn && self.lent == self.expected;
        if is_same {
            let (head, week, waiting) = before;
            self.shifts.count(&waiting, call, &answer)?;
            self.count_hours(head, week, &waiting, call, &answer, &output);
            return Ok(answer);
        }
        let tables = self.tables_differ().or(differ("output", &drawn, &output));
        let answers = format!("expected {answer:?}\n    came {:?}", calls::answer(kind, &values));
        Err(format!("{call:?}: answer\n{answers}\n{}", tables.unwrap_or_default()))
    }

    // Of a call that was not refused. Neighbours on the chart that touch stand for a segment.
    fn count_hours(&mut self, head: Head, week: Week, waiting: &[Request], call: &Call, answer: &[u64], output: &[u64]) {
        let starts = match *answer {
            [REFUSED, _] | [OPENED] => return,
            [CHART, count] => &output[..count as usize],
            _ => &[],
        };
        let do_touch = |pair: &&[u64]| (pair[0] + 1..pair[1]).all(|slot| !week.is_open(slot));
        let touching: Vec<(u64, u64)> = starts
            .windows(2)
            .filter(do_touch)
            .map(|pair| (pair[0], pair[1] + 1))
            .collect();
        let before = Before {
            setup: head.setup,
            week,
            clock: head.clock,
            waiting,
        };
        self.hours.count(&before, call, answer, &touching);
    }

    fn tables_differ(&self) -> Option<String> {
        let (expected, came) = (&self.expected, &self.lent);
        differ("head", &[expected.head], &[came.head])
            .or(differ("hours", &[expected.hours], &[came.hours]))
            .or(differ("waiting", &expected.waiting, &came.waiting))
            .or(differ("clients", expected.clients(), came.clients()))
            .or(differ("client numbers", &expected.client_numbers, &came.client_numbers))
    }
}

// Where two of the same length differ first.
fn differ<T: PartialEq + Debug>(what: &str, expected: &[T], came: &[T]) -> Option<String> {
    let at = (0..expected.len()).find(|&i| expected[i] != came[i])?;
    Some(format!(
        "{what} at {at}\nexpected {:?}\n    came {:?}",
        expected[at], came[at]
    ))
}
