//! "Tables and bounds".
use super::hours::{Hours, Week};
use super::Fault;
use std::ops::RangeInclusive;
// "A record has a deadline, a request number and a client." "The head, passed and handed back: clients, period, clock, last
// request number, waiting count." Document 02: "Open takes slots per hour and 168 open-or-closed marks". The same as they are lent.
pub use welsbell::{Head, Request, Setup};

// "Clients: 1 to 256, numbered from 0."
pub const CLIENTS: RangeInclusive<u64> = 1..=256;

// "The waiting requests are records in a lent table of 1 to 2,048 records."
pub const RECORDS: RangeInclusive<usize> = 1..=2_048;

// "submitted, served, dropped, each at most 268,435,455"
pub const COUNTED: RangeInclusive<u64> = 0..=268_435_455;

// "Clock and request numbers end at 281,474,976,710,655."
pub const TO_THE_END: RangeInclusive<u64> = 0..=281_474_976_710_655;

// "Period: 1 to 4,294,967,295 slots."
pub const PERIODS: RangeInclusive<u64> = 1..=4_294_967_295;

// "past the clock by 1 to 65,535, all slots counted"
pub const AHEAD: RangeInclusive<i128> = 1..=65_535;

// "The client table has one record a client: submitted, served, dropped"
#[derive(Clone, Copy, Debug, Default, PartialEq)]
pub struct Counts {
    pub submitted: u64,
    pub served: u64,
    pub dropped: u64,
}

// The head and both lent tables, of any lengths and with anything in them.
#[derive(Clone, Debug, Default, PartialEq)]
pub struct Queue {
    pub head: Head,
    pub hours: Hours,
    pub records: Vec<Request>,
    pub clients: Vec<Counts>,
    // The client table is lent as its numbers: how many come behind the last whole record, one or two or none.
    pub odd_numbers: usize,
    pub fault: Fault,
}

impl Queue {
    // Tables of so many records, all zero, with a head that is zero too.
    pub fn zero(records: usize, clients: usize, fault: Fault) -> Queue {
        Queue {
            head: Head::default(),
            hours: Hours::default(),
            records: vec![Request::default(); records],
            clients: vec![Counts::default(); clients],
            odd_numbers: 0,
            fault,
        }
    }

    // The client table's length: a record is three numbers.
    pub fn client_numbers(&self) -> u128 {
        3 * self.clients.len() as u128 + self.odd_numbers as u128
    }

    // The waiting records, which stand first in their table.
    pub fn waiting(&self) -> &[Request] {
        let count = (self.head.waiting as usize).min(self.records.len());
        &self.records[..count]
    }

    pub fn behind_the_waiting(&self) -> &[Request] {
        &self.records[self.waiting().len()..]
    }

    pub fn waiting_of(&self, client: u64) -> u64 {
        self.waiting().iter().filter(|request| request.client == client).count() as u64
    }

    // Which slots are open.
    pub fn week(&self) -> Week {
        Week::new(self.head.setup.slots_per_hour, self.hours, self.fault)
    }

    // "past the clock by 1 to 65,535, all slots counted", of a deadline or of anything that stands in its place
    pub fn is_in_reach(&self, deadline: u64) -> bool {
        let clock = self.head.clock;
        if self.fault == Fault::ReachInOpenSlots {
            return self.week().is_within_open(*AHEAD.end(), clock, deadline);
        }
        AHEAD.contains(&(i128::from(deadline) - i128::from(clock)))
    }

    // "Wherever document 01 counts slots up to a deadline, only open ones count": the first open slots from the clock on, as many
    // as there are requests, but none behind the last of their deadlines. More are never needed.
    pub fn slots_for(&self, requests: &[Request]) -> Vec<u64> {
        let last = requests.iter().map(|request| request.deadline).max().unwrap_or_default();
        self.week().open_slots(self.head.clock, last).take(requests.len()).collect()
    }
}

// "chart order (earlier deadline first, equal deadlines by smaller number, no two equal in both)"
pub fn stands_before(one: &Request, other: &Request) -> bool {
    one.deadline < other.deadline || (one.deadline == other.deadline && one.number < other.number)
}
