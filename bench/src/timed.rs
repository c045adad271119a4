//! The calls that are timed, each with tables for it.
use crate::by_hand::slots::week::HOURS;
use tests::model::{Call, Fault, Week};
use tests::random::Random;
use tests::tables::*;

// A call, the tables that it is made on each time, and the number of its answer.
pub struct Timed {
    pub name: &'static str,
    pub tables: Tables,
    pub call: Call,
    pub answer: u64,
}

const PERIOD: u64 = 1_000_000;
const CLOCK: u64 = PERIOD + 1;
const NO_LIMIT: usize = usize::MAX;

// How many records and clients tables have, and their hours.
#[derive(Clone, Copy)]
pub struct Size {
    pub records: usize,
    pub clients: usize,
    pub slots_per_hour: u64,
    pub hours: Hours,
}

impl Size {
    pub fn new(records: usize, clients: usize) -> Size {
        Size {
            records,
            clients,
            slots_per_hour: 1,
            hours: ALL_OPEN,
        }
    }

    // Every second hour is closed, and the clock's is open.
    pub fn every_second_closed(self, slots_per_hour: u64) -> Size {
        let mut hours = Hours::default();
        let first = (CLOCK / slots_per_hour % 2) as usize;
        (first..HOURS).step_by(2).for_each(|hour| hours.mark(hour, true));
        Size {
            slots_per_hour,
            hours,
            ..self
        }
    }

    fn setup(&self) -> Setup {
        setup_with(self.clients as u64, PERIOD, self.slots_per_hour)
    }
}

// Tables of this size with so many waiting, ties among them and their clients in no order; no deadline is full, unless the room
// has a limit that many of them share. Where hours are closed, deadlines lie in them too.
fn tables(size: Size, n: usize, limit: usize) -> Tables {
    let mut random = Random(0x2545_F491_4F6C_DD1D);
    let mut t = Tables::zero(head(size.clients as u64, PERIOD, CLOCK, 100_000, n as u64), size.records);
    (t.head.setup, t.hours) = (size.setup(), size.hours);
    for client in t.clients_mut() {
        (client.served, client.dropped) = (random.below(50) as u32, 1 + random.below(50) as u32);
        client.submitted = client.served + client.dropped;
    }
    let week = Week::new(size.slots_per_hour, size.hours, Fault::None);
    let open: Vec<u64> = week.open_slots(CLOCK, CLOCK + MOST_AHEAD).collect();
    let (mut room, mut deadline) = (0, 0);
    for i in 0..n {
        room = (i + 2).max(room + random.below(3)).min(limit);
        let client = random.below(size.clients);
        deadline = deadline.max(deadline_with(&mut random, &open, room));
        t.waiting[i] = request(deadline, 10 + i as u64, client as u64);
        t.clients_mut()[client].submitted += 1;
    }
    t
}

// A deadline up to which so many slots are open: the end of the last of them, or any slot before the next open one.
fn deadline_with(random: &mut Random, open: &[u64], room: usize) -> u64 {
    let (first, last) = (open[room - 1] + 1, open[room]);
    if first == last {
        first
    } else {
        random.between(first, last)
    }
}

fn submit(name: &'static str, tables: Tables, deadline: u64, answer: u64) -> Timed {
    Timed {
        name,
        tables,
        call: Call::Submit { client: 0, deadline },
        answer,
    }
}

// With the deadline of the record behind which it comes.
fn kept(name: &'static str, tables: Tables, behind: Option<usize>) -> Timed {
    let earliest = tables.head.clock + 1;
    let deadline = behind.map_or(earliest, |i| tables.waiting[i].deadline);
    submit(name, tables, deadline, KEPT)
}

fn dropped(size: Size, n: usize) -> Timed {
    let tables = tables(size, n, n);
    let deadline = tables.waiting[n / 2].deadline;
    submit("submit dropped", tables, deadline, DROPPED)
}

fn short_submits(size: Size) -> Vec<Timed> {
    vec![
        kept("submit kept", tables(size, 0, NO_LIMIT), None),
        kept("submit kept in the middle", tables(size, 64, NO_LIMIT), Some(32)),
        dropped(size, 64),
    ]
}

// Into a table with one record free.
fn submits(size: Size) -> Vec<Timed> {
    let most = size.records - 1;
    let loose = || tables(size, most, NO_LIMIT);
    vec![
        kept("submit kept at the front", loose(), None),
        kept("submit kept in the middle", loose(), Some(most / 2)),
        kept("submit kept at the end", loose(), Some(most - 1)),
        dropped(size, most),
    ]
}

fn tick(tables: Tables) -> Timed {
    let is_idle = tables.head.waiting == 0;
    Timed {
        name: if is_idle { "tick idle" } else { "tick serves" },
        tables,
        call: Call::Tick,
        answer: if is_idle { IDLE } else { SERVED },
    }
}

// The slot that passes is the last of its period.
fn period_start(size: Size) -> Timed {
    let mut tables = tables(size, size.records, NO_LIMIT);
    tables.head.setup.period = tables.head.clock + 1;
    Timed {
        name: "tick serves, period starts",
        ..tick(tables)
    }
}

fn chart(tables: Tables) -> Timed {
    Timed {
        name: "chart",
        tables,
        call: Call::Chart { entries: MOST_RECORDS },
        answer: CHART,
    }
}

// Every call, on tables of the largest size with so many clients.
pub fn calls(clients: usize) -> Vec<Timed> {
    let size = Size::new(MOST_RECORDS, clients);
    let waiting = [0, 64, MOST_RECORDS];
    let with = |n| tables(size, n, NO_LIMIT);
    let same = |name, call, answer| {
        waiting.map(|n| Timed {
            name,
            tables: with(n),
            call,
            answer,
        })
    };
    let open = Call::Open {
        setup: size.setup(),
        hours: size.hours,
    };
    let client = clients as u64 / 2;
    let mut calls = Vec::from(same("open", open, OPENED));
    calls.extend(short_submits(size));
    calls.extend(submits(size));
    calls.extend(waiting.map(|n| tick(with(n))));
    calls.push(period_start(size));
    calls.extend(same("report", Call::Report { client }, REPORT));
    calls.extend(waiting.map(|n| chart(with(n))));
    calls
}

// What looks at slots, on tables of the largest size with every second hour closed.
pub fn calls_with_hours(slots_per_hour: u64, clients: usize) -> Vec<Timed> {
    let size = Size::new(MOST_RECORDS, clients).every_second_closed(slots_per_hour);
    let full = || tables(size, MOST_RECORDS, NO_LIMIT);
    let mut calls = submits(size);
    calls.extend([tick(full()), chart(full())]);
    calls
}

// A submit into the middle of a table one short of full, for each of these lengths, and then a tick of a full one.
pub fn growing(lengths: &[usize], clients: usize) -> Vec<Timed> {
    let with = |records, n| tables(Size::new(records, clients), n, NO_LIMIT);
    let submits = lengths.iter().map(|&records| {
        let behind = (records > 1).then_some((records - 1) / 2);
        kept("submit kept in the middle", with(records, records - 1), behind)
    });
    let ticks = lengths.iter().map(|&records| tick(with(records, records)));
    submits.chain(ticks).collect()
}
