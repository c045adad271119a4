//! What the lines of a session come to, found slowly: the model answers them, and each thing is then counted by itself.
use std::collections::{BTreeMap, BTreeSet};
use tests::model::calls::{CLOSED, DROPPED, IDLE, KEPT, OPENED, REFUSED, SERVED};
use tests::model::hours::Hours;
use tests::model::session::{call_of, read, session, widths_in, widths_out};
use tests::model::{Answer, Call, Fault, Week};

/// A line of a session with the model's answers.
pub struct Turn<'a> {
    pub number: u64,
    pub line: &'a [u8],
    pub is_ended: bool,
    /// Its kind and values; empty where it is no frame that a line feed ends.
    pub frame: Vec<u64>,
    pub answers: Vec<Answer>,
}

impl Turn<'_> {
    pub fn is_opened(&self) -> bool {
        self.answers == [[OPENED]]
    }
}

pub fn turns(input: &[u8]) -> Vec<Turn<'_>> {
    let answered = session(input, Fault::None);
    let count = answered.len();
    let turns = (1..).zip(answered).map(|(number, answered)| {
        let is_ended = number < count || input.ends_with(b"\n");
        let frame = read(answered.line, widths_in).filter(|_| is_ended);
        let answers = answered.printed.lines().filter_map(|line| read(line.as_bytes(), widths_out));
        Turn {
            number: number as u64,
            line: answered.line,
            is_ended,
            frame: frame.unwrap_or_default(),
            answers: answers.collect(),
        }
    });
    turns.collect()
}

/// A read that was taken in.
struct Request {
    number: u64,
    client: u64,
    deadline: u64,
    /// The clock at its submission.
    clock: u64,
    shift: u64,
}

impl Request {
    fn title(&self, slot: u64) -> String {
        let Request { number, client, deadline, clock, .. } = self;
        format!("slot {slot}: number {number} of client {client}, submitted at clock {clock}, to end by {deadline}")
    }
}

/// A quotient to three places, rounded: what stands before the point and what behind it. By 0 it is 0.
fn rounded(number: u64, by: u64) -> [u64; 2] {
    let thousandths = (1_000 * number + by / 2) / by.max(1);
    [thousandths / 1_000, thousandths % 1_000]
}

/// So many ranges of hours are named.
const NAMED: usize = 12;

/// The hours that an open has set.
#[derive(Clone, Copy)]
struct Opened {
    slots_per_hour: u64,
    week: Week,
}

impl Opened {
    fn of(slots_per_hour: u64, hours: Hours) -> Opened {
        let week = Week::new(slots_per_hour, hours, Fault::None);
        Opened { slots_per_hour, week }
    }

    fn is_hour_open(&self, hour: u64) -> bool {
        self.week.is_open(hour * self.slots_per_hour)
    }

    fn has_closed(&self) -> bool {
        !(0..168).all(|hour| self.is_hour_open(hour))
    }

    /// The runs of hours that are open, or of those that are closed: each alone, or its first hour and its last.
    fn runs(&self, are_open: bool) -> Vec<Vec<u64>> {
        let hours: Vec<u64> = (0..168).collect();
        let runs = hours.chunk_by(|&one, &next| self.is_hour_open(one) == self.is_hour_open(next));
        let runs = runs.filter(|run| self.is_hour_open(run[0]) == are_open);
        runs.map(|run| if run.len() == 1 { run.to_vec() } else { vec![run[0], run[run.len() - 1]] }).collect()
    }

    /// The numbers of what is said of the hours: nothing where they are document 01's, else the slots an hour and, where some are
    /// closed, how many are open and of how many, with the runs of these or of the closed ones, whichever are shorter to name.
    fn said(&self) -> Vec<u64> {
        if !self.has_closed() {
            return if self.slots_per_hour == 1 { vec![] } else { vec![self.slots_per_hour] };
        }
        let characters = |runs: &Vec<Vec<u64>>| runs.iter().flatten().map(|hour| hour.to_string().len() + 1).sum::<usize>();
        let [open, closed] = [true, false].map(|are_open| self.runs(are_open));
        let named = if characters(&open) < characters(&closed) { open } else { closed };
        let named = if named.len() <= NAMED { named.concat() } else { vec![] };
        let count = (0..168).filter(|&hour| self.is_hour_open(hour)).count() as u64;
        [vec![self.slots_per_hour, count, 168], named].concat()
    }
}

/// What a list of lines shows, from an accepted open on or before the first.
#[derive(Default)]
pub struct List {
    /// The open's line; 0 where there is none.
    line: u64,
    pub clients: u64,
    period: u64,
    pub records: u64,
    hours: Option<Opened>,
    requests: Vec<Request>,
    /// Slots and numbers.
    served: Vec<(u64, u64)>,
    /// Victims' numbers, with the clocks at which they fell.
    dropped: Vec<(u64, u64)>,
    idle: u64,
    /// Closed slots.
    closed: BTreeSet<u64>,
    pub refused: BTreeMap<u64, u64>,
}

impl List {
    pub fn of(turns: &[Turn]) -> List {
        let mut list = List::default();
        for turn in turns {
            list.take(turn);
        }
        list
    }

    fn take(&mut self, turn: &Turn) {
        let clock = self.clock();
        match (&turn.frame[..], &turn.answers[0][..]) {
            (frame @ &[_, clients, period, records, ..], [OPENED]) => {
                (self.line, self.clients, self.period, self.records) = (turn.number, clients, period, records);
                self.hours = match call_of(frame) {
                    Some(Call::Open { setup, hours }) => Some(Opened::of(setup.slots_per_hour, hours)),
                    _ => None,
                };
            }
            (&[_, client, deadline], &[KEPT, number, _, shift]) => self.requests.push(Request { number, client, deadline, clock, shift }),
            (&[_, client, deadline], &[DROPPED, number, victim, _, shift]) => {
                self.requests.push(Request { number, client, deadline, clock, shift });
                self.dropped.push((clock, victim));
            }
            (_, &[SERVED, slot, number, _]) => self.served.push((slot, number)),
            (_, [IDLE, _]) => self.idle += 1,
            (_, &[CLOSED, slot]) => {
                self.closed.insert(slot);
            }
            (_, &[REFUSED, number]) => *self.refused.entry(number).or_default() += 1,
            _ => {}
        }
    }

    /// As many as slots have passed.
    pub fn clock(&self) -> u64 {
        (self.served.len() + self.closed.len()) as u64 + self.idle
    }

    fn is_served(&self, request: &Request) -> bool {
        self.served.iter().any(|(_, number)| *number == request.number)
    }

    fn is_dropped(&self, request: &Request) -> bool {
        self.dropped.iter().any(|(_, number)| *number == request.number)
    }

    /// How many are submitted, served, dropped and waiting, of those for which it holds.
    fn counts(&self, holds: impl Fn(&Request) -> bool) -> [u64; 4] {
        let of: Vec<&Request> = self.requests.iter().filter(|request| holds(request)).collect();
        let served = of.iter().filter(|request| self.is_served(request)).count();
        let dropped = of.iter().filter(|request| self.is_dropped(request)).count();
        [of.len(), served, dropped, of.len() - served - dropped].map(|count| count as u64)
    }

    fn request(&self, number: u64) -> Option<&Request> {
        self.requests.iter().find(|request| request.number == number)
    }

    pub fn is_open(&self, slot: u64) -> bool {
        self.hours.is_none_or(|hours| hours.week.is_open(slot))
    }

    /// The first open slot from the clock on: where the clock is in a closed hour, an hour begins with it.
    pub fn next_open(&self) -> Option<u64> {
        let per_hour = self.hours?.slots_per_hour;
        let begins = (self.clock() / per_hour + 1..).take(168).map(|hour| hour * per_hour);
        [self.clock()].into_iter().chain(begins).find(|&slot| self.is_open(slot))
    }

    /// Slots passed, idle ones and, where hours are closed, closed ones.
    fn passed(&self) -> Vec<u64> {
        let closed = self.hours.is_some_and(|hours| hours.has_closed()).then_some(self.closed.len() as u64);
        [self.clock(), self.idle].into_iter().chain(closed).collect()
    }

    /// Of all reads: slots passed, idle and closed ones, reads submitted, served, dropped and waiting, and, where some were, lines refused.
    pub fn outcome(&self) -> Vec<u64> {
        let refused = (!self.refused.is_empty()).then(|| self.refused.values().sum());
        self.passed().into_iter().chain(self.counts(|_| true)).chain(refused).collect()
    }

    pub fn is_closed(&self, slot: u64) -> bool {
        self.closed.contains(&slot)
    }

    /// The client that was served in each slot, if one was.
    pub fn clients_served(&self) -> Vec<Option<u64>> {
        let number = |slot: u64| self.served.iter().find(|(served, _)| *served == slot).map(|(_, number)| *number);
        (0..self.clock()).map(|slot| self.request(number(slot)?).map(|request| request.client)).collect()
    }

    /// What a drawing says of each read that was served.
    pub fn served_titles(&self) -> Vec<String> {
        let title = |&(slot, number): &(u64, u64)| self.request(number).map(|request| request.title(slot));
        self.served.iter().filter_map(title).collect()
    }

    /// How many reads of a client were dropped at a clock, by both.
    pub fn drops(&self) -> BTreeMap<(u64, u64), u64> {
        let mut drops = BTreeMap::new();
        let dropped = self.dropped.iter().filter_map(|&(clock, number)| Some((clock, self.request(number)?.client)));
        dropped.for_each(|drop| *drops.entry(drop).or_default() += 1);
        drops
    }

    /// What a drawing says of each waiting read on a chart. "From the last record to the first, a request ends at the smaller of its
    /// deadline and the start of the record behind it, and starts one slot earlier." "the chart uses the latest open slots"
    pub fn chart_titles(&self) -> Vec<String> {
        let is_waiting = |request: &&Request| !self.is_served(request) && !self.is_dropped(request);
        let mut waiting: Vec<&Request> = self.requests.iter().filter(is_waiting).collect();
        waiting.sort_by_key(|request| (request.deadline, request.number));
        let starts = waiting.iter().rev().scan(u64::MAX, |start, request| {
            *start = (0..request.deadline.min(*start)).rev().find(|&slot| self.is_open(slot))?;
            Some(request.title(*start))
        });
        starts.collect()
    }

    /// A client's drops and submits since its period began, in which what waited at the beginning counts as submitted.
    pub fn missed(&self, client: u64) -> [u64; 2] {
        let start = self.clock() - self.clock() % self.period;
        let ended = self.served.iter().chain(&self.dropped);
        let ended: Vec<u64> = ended.filter(|(clock, _)| *clock < start).map(|(_, number)| *number).collect();
        let [submitted, _, dropped, _] = self.counts(|request| request.client == client && !ended.contains(&request.number));
        [dropped, submitted]
    }

    /// Whether some read of the client came over from the period before.
    pub fn has_carried(&self, client: u64) -> bool {
        let start = self.clock() - self.clock() % self.period;
        let [_, submitted] = self.missed(client);
        let new = self.requests.iter().filter(|request| request.client == client && request.clock >= start).count();
        submitted > new as u64
    }

    pub fn has_silent(&self) -> bool {
        self.rows().iter().any(|(words, _)| *words == "no read taken in")
    }

    /// The slots between the clock at submission and the slot that served it, the most there were, and the first of these reads:
    /// its number, its client, that clock and that slot.
    pub fn longest_wait(&self) -> Option<[u64; 5]> {
        let waits = self.served.iter().rev().filter_map(|&(slot, served)| {
            let request = self.request(served)?;
            Some([slot - request.clock, served, request.client, request.clock, slot])
        });
        // Of equals the last is given, and they come from behind.
        waits.max_by_key(|[wait, ..]| *wait)
    }

    /// The longest run of slots each of which served a read, with closed ones between them that are not counted, and the first of these
    /// runs: its first and last slot, how many served, and the drops at its clocks.
    pub fn busiest_stretch(&self) -> Option<[u64; 4]> {
        let is_busy = |slot: &u64| self.served.iter().any(|(served, _)| served == slot);
        let run = |first: u64| (first..).take_while(|slot| is_busy(slot) || self.is_closed(*slot)).filter(is_busy).collect::<Vec<u64>>();
        let runs = self.served.iter().rev().map(|&(first, _)| run(first));
        let longest = runs.max_by_key(|run| run.len())?;
        let (first, last, length) = (longest[0], longest[longest.len() - 1], longest.len() as u64);
        let dropped = self.dropped.iter().filter(|(clock, _)| (first..=last).contains(clock)).count();
        Some([first, last, length, dropped as u64])
    }

    /// Each line of the summary: words that stand in it, and all its numbers.
    pub fn summary(&self) -> Vec<(&'static str, Vec<u64>)> {
        match (self.line, self.refused.is_empty()) {
            (0, true) => vec![],
            (0, false) => vec![("No open", vec![]), self.refusals()],
            _ => [self.setup(), self.rows(), self.shifts(), self.extremes(), vec![self.refusals()]].concat(),
        }
    }

    /// The open's line, and what it opened.
    pub fn opened(&self) -> Vec<u64> {
        let hours = self.hours.map(|hours| hours.said()).unwrap_or_default();
        [vec![self.line, self.clients, self.period, self.records], hours].concat()
    }

    fn setup(&self) -> Vec<(&'static str, Vec<u64>)> {
        vec![
            ("Opened in line", self.opened()),
            ("passed, of them idle", self.passed()),
            ("client submitted served dropped waiting miss ratio", vec![]),
        ]
    }

    /// A row for each client that submitted something, one for all, and of how many no read was taken in.
    fn rows(&self) -> Vec<(&'static str, Vec<u64>)> {
        let submitting = |client: &u64| self.requests.iter().any(|request| request.client == *client);
        let rows = (0..self.clients).filter(submitting).map(|client| ("", self.row(Some(client))));
        let silent = (0..self.clients).filter(|client| !submitting(client)).count() as u64;
        let silent = (silent > 0).then(|| ("no read taken in", vec![silent]));
        rows.chain([("all", self.row(None))]).chain(silent).collect()
    }

    /// A client, its counts and its miss ratio; without a client, those of all.
    pub fn row(&self, client: Option<u64>) -> Vec<u64> {
        let counts @ [submitted, _, dropped, _] = self.counts(|request| client.is_none_or(|client| request.client == client));
        [client.into_iter().collect(), counts.to_vec(), rounded(dropped, submitted).to_vec()].concat()
    }

    /// The largest shift, and how large they are on average.
    fn shifts(&self) -> Vec<(&'static str, Vec<u64>)> {
        let shifts: Vec<u64> = self.requests.iter().map(|request| request.shift).collect();
        let mean = rounded(shifts.iter().sum(), shifts.len() as u64);
        let largest = shifts.iter().max().map(|largest| ("Largest shift", [&[*largest], &mean[..]].concat()));
        largest.into_iter().collect()
    }

    fn extremes(&self) -> Vec<(&'static str, Vec<u64>)> {
        let longest = self.longest_wait().map(|wait| ("Longest wait", wait.to_vec()));
        let busiest = self.busiest_stretch().map(|stretch| ("Busiest stretch", stretch.to_vec()));
        longest.into_iter().chain(busiest).collect()
    }

    /// Of all together, and then each number with its own.
    fn refusals(&self) -> (&'static str, Vec<u64>) {
        let each = self.refused.iter().flat_map(|(number, times)| [*number, *times]);
        let all = (!self.refused.is_empty()).then(|| self.refused.values().sum());
        ("Refused", all.into_iter().chain(each).collect())
    }
}
