//! What the lines and answers of a session show: the reads that wait, the clock, what became of each client's reads. It is read off
//! the answers of the proved program; nothing is decided here.
use crate::lines::frames::{Frame, CHARTED, CLOSED, DROPPED, IDLE, KEPT, OPENED, REFUSED, SEGMENT, SERVED, TICK};
use crate::session::hours::Hours;
use std::collections::BTreeMap;
use std::iter::Sum;

/// A read that was taken in. Reads go by deadline and then by number, which is chart order.
#[derive(Clone, Copy, Debug, PartialEq, Eq, PartialOrd, Ord)]
pub struct Read {
    pub deadline: u64,
    pub number: u64,
    pub client: u64,
    /// The clock at its submission.
    pub since: u64,
}

/// A client's reads, since the open or since the period began.
#[derive(Clone, Copy, Debug, Default)]
pub struct Counts {
    pub submitted: u64,
    pub served: u64,
    pub dropped: u64,
}

impl Counts {
    /// The miss ratio: how many were dropped, and of how many.
    pub fn missed(&self) -> (u64, u64) {
        (self.dropped, self.submitted)
    }
}

impl<'a> Sum<&'a Counts> for Counts {
    fn sum<I: Iterator<Item = &'a Counts>>(counts: I) -> Counts {
        counts.fold(Counts::default(), |sum, next| Counts {
            submitted: sum.submitted + next.submitted,
            served: sum.served + next.served,
            dropped: sum.dropped + next.dropped,
        })
    }
}

/// What one answer says.
#[derive(Debug)]
pub enum Event {
    Opened,
    /// The read was taken in and waits.
    Kept(Read),
    /// The first was taken in and the second, perhaps itself, dropped.
    Dropped(Read, Read),
    Served { slot: u64, read: Read },
    Idle { slot: u64 },
    /// The slot belongs to the inspectors, whether or not reads wait.
    Closed { slot: u64 },
    /// The chart's segments, each from its left end to its right.
    Charted(Vec<(u64, u64)>),
    Refused(u64),
    /// A report.
    Other,
}

/// "The clock .. is the number of ticks .. that were not refused, whatever they answered."
pub fn passes_slot(call: &Frame, answers: &[Frame]) -> bool {
    call.kind() == TICK && answers.iter().all(|answer| answer.kind() != REFUSED)
}

/// A session since its last accepted open.
#[derive(Clone, Default)]
pub struct Followed {
    /// Whether an open was accepted.
    pub is_open: bool,
    pub period: u64,
    pub records: u64,
    pub hours: Hours,
    pub clock: u64,
    /// By number.
    pub waiting: BTreeMap<u64, Read>,
    /// One a client, since the open.
    pub clients: Vec<Counts>,
    /// One a client, since the period began, as the queue counts.
    pub in_period: Vec<Counts>,
    /// The sum of the shifts of all reads that were taken in since the open, and the largest of them.
    pub shifts: u64,
    pub largest_shift: u64,
}

impl Followed {
    /// Follows a call and its answers.
    pub fn take(&mut self, call: &Frame, answers: &[Frame]) -> Vec<Event> {
        let is_chart = answers.last().is_some_and(|answer| answer.kind() == CHARTED);
        if is_chart {
            let segments = answers.iter().filter(|answer| answer.kind() == SEGMENT);
            return vec![Event::Charted(segments.map(|segment| (segment["left"], segment["right"])).collect())];
        }
        let events: Vec<Event> = answers.iter().map(|answer| self.event(call, answer)).collect();
        if passes_slot(call, answers) {
            self.end_slot();
        }
        events
    }

    fn event(&mut self, call: &Frame, answer: &Frame) -> Event {
        match answer.kind() {
            OPENED => self.open(call),
            KEPT => Event::Kept(self.submit(call, answer)),
            DROPPED => self.drop_one(call, answer),
            SERVED => self.serve(answer),
            IDLE => Event::Idle { slot: answer["slot"] },
            CLOSED => Event::Closed { slot: answer["slot"] },
            REFUSED => Event::Refused(answer["number"]),
            _ => Event::Other,
        }
    }

    fn open(&mut self, call: &Frame) -> Event {
        let counts = vec![Counts::default(); call["clients"] as usize];
        *self = Followed {
            is_open: true,
            period: call["period"],
            records: call["records"],
            hours: Hours::new(call["hour"], call.marks()),
            clients: counts.clone(),
            in_period: counts,
            ..Followed::default()
        };
        Event::Opened
    }

    fn submit(&mut self, call: &Frame, answer: &Frame) -> Read {
        let read = Read {
            deadline: call["deadline"],
            number: answer["number"],
            client: call["client"],
            since: self.clock,
        };
        self.count(read.client, |counts| counts.submitted += 1);
        self.shifts += answer["shift"];
        self.largest_shift = self.largest_shift.max(answer["shift"]);
        self.waiting.insert(read.number, read);
        read
    }

    fn drop_one(&mut self, call: &Frame, answer: &Frame) -> Event {
        let new = self.submit(call, answer);
        let victim = self.waiting.remove(&answer["victim"]).unwrap_or(new);
        self.count(victim.client, |counts| counts.dropped += 1);
        Event::Dropped(new, victim)
    }

    fn serve(&mut self, answer: &Frame) -> Event {
        let (slot, number) = (answer["slot"], answer["number"]);
        let Some(read) = self.waiting.remove(&number) else {
            return Event::Other;
        };
        self.count(read.client, |counts| counts.served += 1);
        Event::Served { slot, read }
    }

    fn count(&mut self, client: u64, change: impl Fn(&mut Counts)) {
        for counts in [&mut self.clients, &mut self.in_period] {
            change(&mut counts[client as usize]);
        }
    }

    /// "If it is now a multiple of the period, each client's submitted becomes its waiting count, served and dropped become 0."
    fn end_slot(&mut self) {
        self.clock += 1;
        if self.clock.is_multiple_of(self.period) {
            self.in_period.fill(Counts::default());
            for read in self.waiting.values() {
                self.in_period[read.client as usize].submitted += 1;
            }
        }
    }

    /// The waiting reads in chart order.
    pub fn chart_order(&self) -> Vec<Read> {
        let mut reads: Vec<Read> = self.waiting.values().copied().collect();
        reads.sort();
        reads
    }
}
