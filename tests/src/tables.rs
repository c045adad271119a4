// Document 01's bounds, the tables, and the numbers of the answers: what programs with and without the exported calls share. Bounds
// and numbers are the wrapper's, so that cases which hold the library to them hold the wrapper too.
use std::slice::{from_raw_parts, from_raw_parts_mut};

pub use welsbell::raw::{CHARTED as CHART, CLOSED, DROPPED, IDLE, KEPT, OPENED, REFUSED, REPORTED as REPORT, SERVED};
pub use welsbell::{Client, Head, Hours, Request, Setup};
pub use welsbell::{END, MOST_AHEAD, MOST_CLIENTS, MOST_COUNTED, MOST_PERIOD, MOST_PER_HOUR, MOST_RECORDS};

// "In document 01's cases and session all hours are open": with one slot each, and likewise in all tables of which no more is said.
pub const ALL_OPEN: Hours = Hours { marks: [0xFF; 21] };

pub fn request(deadline: u64, number: u64, client: u64) -> Request {
    Request {
        deadline,
        number,
        client,
    }
}

// Setups and heads of given numbers are made here alone, the model's aside, so that a number more in them has one place.
pub fn setup(clients: u64, period: u64) -> Setup {
    setup_with(clients, period, 1)
}

pub fn setup_with(clients: u64, period: u64, slots_per_hour: u64) -> Setup {
    Setup {
        clients,
        period,
        slots_per_hour,
    }
}

pub fn head(clients: u64, period: u64, clock: u64, last: u64, waiting: u64) -> Head {
    Head {
        setup: setup(clients, period),
        clock,
        last,
        waiting,
    }
}

// How many numbers a client's record has.
pub const WIDTH: usize = 3;

// The client table is its numbers, so that it can have lengths that are no records.
#[derive(Clone, Debug, PartialEq)]
pub struct Tables {
    pub head: Head,
    pub hours: Hours,
    pub waiting: Vec<Request>,
    pub client_numbers: Vec<u32>,
}

impl Tables {
    // Tables of so many records, and of the head's clients, all zero. Every hour is open.
    pub fn zero(head: Head, records: usize) -> Tables {
        Tables {
            head,
            hours: ALL_OPEN,
            waiting: vec![Request::default(); records],
            client_numbers: vec![0; WIDTH * head.setup.clients as usize],
        }
    }

    // The client table's whole records; one or two numbers behind them are none.
    pub fn clients(&self) -> &[Client] {
        let (whole, _) = self.client_numbers.as_chunks::<WIDTH>();
        // SAFETY: a record is three numbers one behind the other, and nothing else.
        unsafe { from_raw_parts(whole.as_ptr().cast(), whole.len()) }
    }

    pub fn clients_mut(&mut self) -> &mut [Client] {
        self.parts().3
    }

    // Head, hours, waiting table and client table at once.
    #[inline(always)]
    pub fn parts(&mut self) -> (&mut Head, &mut Hours, &mut [Request], &mut [Client]) {
        let (whole, _) = self.client_numbers.as_chunks_mut::<WIDTH>();
        // SAFETY: as above, and they are borrowed as long as the records are.
        let clients = unsafe { from_raw_parts_mut(whole.as_mut_ptr().cast(), whole.len()) };
        (&mut self.head, &mut self.hours, &mut self.waiting, clients)
    }
}

// Where a call writes its answer's values, to the front.
pub use welsbell::raw::Values;
