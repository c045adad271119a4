//! "Calls".
use super::chart::{can_all_finish, starts, victim};
use super::hours::Hours;
use super::refusals::refusal;
use super::shift::{behind, faulty};
use super::tables::{stands_before, Counts, Head, Queue, Request, Setup};
use super::Fault;

#[derive(Clone, Copy, Debug)]
pub enum Call {
    Open { setup: Setup, hours: Hours },
    Submit { client: u64, deadline: u64 },
    Tick,
    Report { client: u64 },
    // with a lent output of so many entries
    Chart { entries: usize },
}

// An answer's kind and its values: "81 opened; 82 kept, number, place; 83 dropped, new number, victim, victim's client; 84
// served, slot, number, client; 85 idle, slot; 86 report, client, submitted, served, dropped, waiting; ... FF refusal, number".
// "Frames 82 and 83 end with" the shift. "A closed slot serves nobody and tick answers 89 with the slot". A chart's answer has the number of the frame that ends it, 88.
pub type Answer = Vec<u64>;

pub const OPENED: u64 = 0x81;
pub const KEPT: u64 = 0x82;
pub const DROPPED: u64 = 0x83;
pub const SERVED: u64 = 0x84;
pub const IDLE: u64 = 0x85;
pub const REPORT: u64 = 0x86;
pub const CHART: u64 = 0x88;
pub const CLOSED: u64 = 0x89;
pub const REFUSED: u64 = 0xFF;

// The kinds of all answers but refusals.
pub const KINDS: [u64; 8] = [OPENED, KEPT, DROPPED, SERVED, IDLE, REPORT, CHART, CLOSED];

impl Queue {
    // The output is what a chart writes into; other calls leave it.
    pub fn make(&mut self, call: &Call, output: &mut [u64]) -> Answer {
        // "Each answers with its number only; head, tables and output stay unchanged."
        if let Some(number) = refusal(self, call) {
            return vec![REFUSED, number];
        }
        match *call {
            Call::Open { setup, hours } => self.open(setup, hours),
            Call::Submit { client, deadline } => self.submit(client, deadline),
            Call::Tick => self.tick(),
            Call::Report { client } => self.report(client),
            Call::Chart { .. } => self.chart(output),
        }
    }

    // "Open takes clients and period, sets clock, last number and waiting count to 0 and every record to zero." Document 02: it
    // "takes slots per hour and 168 open-or-closed marks".
    fn open(&mut self, setup: Setup, hours: Hours) -> Answer {
        self.hours = hours;
        self.head = Head {
            setup,
            clock: 0,
            last: 0,
            waiting: 0,
        };
        self.records.fill(Request::default());
        self.clients.fill(Counts::default());
        vec![OPENED]
    }

    // "Submit takes a client and a deadline. It gives the next request number, adds 1 to submitted, and puts the record in
    // chart order."
    fn submit(&mut self, client: u64, deadline: u64) -> Answer {
        self.head.last += 1;
        self.clients[client as usize].submitted += 1;
        let number = self.head.last;
        let new = Request {
            deadline,
            number,
            client,
        };
        let mut requests = self.waiting().to_vec();
        // "Submit also answers how many waiting records stood behind the new one in chart order when it was put in."
        let shift = behind(&new, &requests);
        let place = requests.iter().filter(|request| stands_before(request, &new)).count();
        if self.fault == Fault::LostRecord && place < requests.len() {
            requests[place] = new;
        } else {
            requests.insert(place, new);
        }
        // "If every request can still finish, the answer is kept, with number and place (from 0)."
        let mut answer = if can_all_finish(&self.slots_for(&requests), requests.iter()) {
            vec![KEPT, number, place as u64]
        } else {
            self.drop_one(number, &mut requests)
        };
        answer.push(faulty(self, &new, &requests).unwrap_or(shift));
        self.hold(&requests);
        answer
    }

    // "Otherwise one record is taken out, its client's dropped rises by 1, and the answer names the new number, the victim's
    // number and the victim's client."
    fn drop_one(&mut self, number: u64, requests: &mut Vec<Request>) -> Answer {
        let victim = requests.remove(victim(self, requests));
        self.clients[victim.client as usize].dropped += 1;
        vec![DROPPED, number, victim.number, victim.client]
    }

    // These wait now, with zero records behind them.
    fn hold(&mut self, requests: &[Request]) {
        self.head.waiting = requests.len() as u64;
        self.records.fill(Request::default());
        self.records[..requests.len()].copy_from_slice(requests);
    }

    // "Tick serves the first waiting record in the slot that starts at the clock, takes it out, and adds 1 to that client's
    // served; with none waiting it answers idle. Then the clock rises by 1."
    fn tick(&mut self) -> Answer {
        let slot = self.head.clock;
        let is_open = self.week().is_open(slot);
        let answer = if is_open { self.serve(slot) } else { self.closed(slot) };
        self.head.clock += 1;
        let is_lost = self.fault == Fault::ClosedWithoutPeriod && !is_open;
        if self.head.clock.is_multiple_of(self.head.setup.period) && !is_lost {
            self.start_period();
        }
        answer
    }

    // The first waiting record, if there is one.
    fn serve(&mut self, slot: u64) -> Answer {
        let mut requests = self.waiting().to_vec();
        if requests.is_empty() {
            return vec![IDLE, slot];
        }
        let first = requests.remove(0);
        self.clients[first.client as usize].served += 1;
        self.hold(&requests);
        vec![SERVED, slot, first.number, first.client]
    }

    // "A closed slot serves nobody and tick answers 89 with the slot".
    fn closed(&self, slot: u64) -> Answer {
        let kind = match self.fault {
            Fault::IdleInClosed => IDLE,
            Fault::ClosedWhereReadsWait if self.waiting().is_empty() => IDLE,
            _ => CLOSED,
        };
        vec![kind, slot]
    }

    // "If it is now a multiple of the period, each client's submitted becomes its waiting count, served and dropped become 0."
    fn start_period(&mut self) {
        for client in 0..self.clients.len() {
            let is_forgetful = self.fault == Fault::ForgetfulPeriod;
            self.clients[client] = Counts {
                submitted: if is_forgetful { 0 } else { self.waiting_of(client as u64) },
                served: 0,
                dropped: 0,
            };
        }
    }

    // "Report gives a client's three counts and its waiting count."
    fn report(&self, client: u64) -> Answer {
        let counts = self.clients[client as usize];
        let waiting = self.waiting_of(client);
        vec![REPORT, client, counts.submitted, counts.served, counts.dropped, waiting]
    }

    // "Chart writes one start slot a waiting record, in chart order, into a lent output table and answers their count; entries
    // beyond are untouched."
    fn chart(&self, output: &mut [u64]) -> Answer {
        let starts = starts(self.week(), self.waiting());
        output[..starts.len()].copy_from_slice(&starts);
        vec![CHART, starts.len() as u64]
    }
}
