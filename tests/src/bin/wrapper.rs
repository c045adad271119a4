//! The Rust wrapper held to the documents: its version, each answer with its values by name and its words, each refusal with its number
//! and its words. In no answer but a first read's are two values the same, so that none can stand for another.
use std::fmt::Debug;
use std::process::exit;
use tests::tables::{setup, setup_with};
use welsbell::{version, Answer, Client, Hours, Refusal, Tables, END, MOST_COUNTED, MOST_PER_HOUR, VERSION};

#[derive(Default)]
struct Held {
    facts: usize,
    failed: usize,
}

impl Held {
    fn same<T: Debug + PartialEq>(&mut self, what: &str, expected: T, came: T) {
        self.facts += 1;
        if expected != came {
            self.failed += 1;
            eprintln!("{what}\nexpected {expected:?}\ncame {came:?}");
        }
    }

    fn answer(&mut self, words: &str, expected: Answer, came: Answer) {
        self.same(words, expected, came);
        self.same(words, words, &came.to_string());
    }
}

fn kept(number: u64, place: u64, shift: u64) -> Answer {
    Answer::Kept { number, place, shift }
}

// Client 7 has missed more than clients 2 and 6, so that its read is kept and the last of theirs is dropped; two reads of client 5 wait
// behind them all.
fn submits(held: &mut Held, t: &mut Tables<8, 8>) {
    let words = |number, place, shift| format!("number {number} is kept, at place {place}, shift {shift}");
    held.answer(&words(21, 0, 0), kept(21, 0, 0), t.queue().submit(5, 30));
    held.answer(&words(22, 1, 0), kept(22, 1, 0), t.queue().submit(5, 31));
    held.answer(&words(23, 0, 2), kept(23, 0, 2), t.queue().submit(2, 7));
    held.answer(&words(24, 1, 2), kept(24, 1, 2), t.queue().submit(6, 7));
    // the victim stood behind the new one too
    held.answer(
        "number 25, shift 4, is one too many, number 24 of client 6 is dropped",
        Answer::Dropped {
            number: 25,
            victim: 24,
            client: 6,
            shift: 4,
        },
        t.queue().submit(7, 6),
    );
}

fn answers(held: &mut Held) {
    let mut t = Tables::<8, 8>::new();
    held.answer("opened", Answer::Opened, t.queue().open(setup(8, 1_000), Hours::ALL_OPEN));
    (t.head.clock, t.head.last) = (4, 20);
    t.clients[7] = Client {
        submitted: 10,
        served: 7,
        dropped: 3,
    };
    held.answer("nothing waits in slot 4", Answer::Idle { slot: 4 }, t.queue().tick());
    submits(held, &mut t);
    held.answer(
        "number 25 of client 7 is served in slot 5",
        Answer::Served {
            slot: 5,
            number: 25,
            client: 7,
        },
        t.queue().tick(),
    );
    held.same("a read between", kept(26, 1, 2), t.queue().submit(7, 9));
    held.answer(
        "client 7: 12 submitted, 8 served, 3 dropped, 1 waiting",
        Answer::Reported {
            client: 7,
            submitted: 12,
            served: 8,
            dropped: 3,
            waiting: 1,
        },
        t.queue().report(7),
    );
    let mut starts = [99; 5];
    held.answer("4 waiting", Answer::Charted { count: 4 }, t.queue().chart(&mut starts));
    held.same("start slots", [6, 8, 29, 30, 99], starts);
}

// Hours as they are written and read by name, in the place that document 02 gives each: "first hour in the highest bit".
fn hours(held: &mut Held) {
    held.same("all hours open", [0xFF; 21], Hours::ALL_OPEN.marks);
    for hour in 0..168 {
        let mut marks = [0; 21];
        marks[hour / 8] = 1 << (7 - hour % 8);
        let mut hours = Hours::default();
        hours.mark(hour, true);
        held.same("an hour that is marked", marks, hours.marks);
        let found: Vec<usize> = (0..168).filter(|&hour| hours.is_open(hour)).collect();
        held.same("the hours that are open", vec![hour], found);
        hours.mark(hour, false);
        held.same("an hour that is closed again", Hours::default(), hours);
        let mut others = Hours::ALL_OPEN;
        others.mark(hour + 168, false);
        held.same("an hour of the second week", marks.map(|byte| !byte), others.marks);
        held.same("an hour of the second week", false, others.is_open(hour + 168));
    }
}

// Two slots an hour; only hour 1 is open.
fn closed(held: &mut Held) {
    let mut hours = Hours::default();
    hours.mark(1, true);
    let mut t = Tables::<2, 2>::new();
    held.same("an open", Answer::Opened, t.queue().open(setup_with(2, 100, 2), hours));
    held.same("the hours that are lent", hours, t.hours);
    held.answer("slot 0 is closed", Answer::Closed { slot: 0 }, t.queue().tick());
    held.same("a read", kept(1, 0, 0), t.queue().submit(1, 4));
    held.answer("slot 1 is closed", Answer::Closed { slot: 1 }, t.queue().tick());
    let mut starts = [99; 2];
    held.same("a chart", Answer::Charted { count: 1 }, t.queue().chart(&mut starts));
    held.same("start slots", [3, 99], starts);
}

// Tables that are opened, and a call on them that is refused.
type Refused = fn(&mut Tables<2, 2>) -> Answer;

fn open_with(t: &mut Tables<2, 2>, clients: u64, period: u64) -> Answer {
    t.queue().open(setup(clients, period), Hours::ALL_OPEN)
}

// Each refusal with a call that gives it and the words.
const REFUSALS: [(Refusal, u64, Refused, &str); 14] = [
    (
        Refusal::Clients,
        2,
        |t| open_with(t, 0, 1),
        "refused, number 2: clients are not 1 to 256",
    ),
    (
        Refusal::Period,
        3,
        |t| open_with(t, 2, 0),
        "refused, number 3: the period is not 1 to 4294967295 slots",
    ),
    (
        Refusal::PerHour,
        13,
        |t| t.queue().open(setup_with(2, 1, MOST_PER_HOUR + 1), Hours::ALL_OPEN),
        "refused, number 13: slots per hour are not 1 to 360000",
    ),
    (
        Refusal::AllClosed,
        14,
        |t| t.queue().open(setup(2, 1), Hours::default()),
        "refused, number 14: all hours are closed",
    ),
    (
        Refusal::Lengths,
        4,
        |t| open_with(t, 1, 1),
        "refused, number 4: the tables do not have the lengths that are needed",
    ),
    (
        Refusal::Unsound,
        5,
        |t| {
            t.head.setup.period = 0;
            t.queue().tick()
        },
        "refused, number 5: head, hours and tables are not sound",
    ),
    (
        Refusal::Client,
        6,
        |t| t.queue().report(2),
        "refused, number 6: the client does not exist",
    ),
    (
        Refusal::Deadline,
        7,
        |t| t.queue().submit(0, 0),
        "refused, number 7: the deadline is not 1 to 65535 slots after the clock",
    ),
    (
        Refusal::NoOpenSlot,
        15,
        |t| {
            t.hours.mark(0, false);
            t.queue().submit(0, 1)
        },
        "refused, number 15: no slot from the clock to the deadline is open",
    ),
    (
        Refusal::Count,
        8,
        |t| {
            (t.clients[0].submitted, t.clients[0].served) = (MOST_COUNTED, MOST_COUNTED);
            t.queue().submit(0, 1)
        },
        "refused, number 8: the client has submitted as many requests as can be counted",
    ),
    (
        Refusal::Number,
        9,
        |t| {
            t.head.last = END;
            t.queue().submit(0, 1)
        },
        "refused, number 9: the last request number has been given",
    ),
    (
        Refusal::Full,
        10,
        |t| {
            let answers = [7, 8, 9].map(|deadline| t.queue().submit(0, deadline));
            answers[2]
        },
        "refused, number 10: the waiting table is full",
    ),
    (
        Refusal::Clock,
        11,
        |t| {
            t.head.clock = END;
            t.queue().tick()
        },
        "refused, number 11: the clock is at its end",
    ),
    (
        Refusal::Output,
        12,
        |t| {
            let _ = t.queue().submit(0, 1);
            t.queue().chart(&mut [])
        },
        "refused, number 12: the output is shorter than the waiting count",
    ),
];

fn refusals(held: &mut Held) {
    for (refusal, number, call, words) in REFUSALS {
        let mut t = Tables::new();
        held.same("an open", Answer::Opened, open_with(&mut t, 2, 100));
        held.answer(words, Answer::Refused(refusal), call(&mut t));
        held.same(words, number, refusal.number());
    }
    held.same("all refusals", REFUSALS.map(|(refusal, ..)| refusal), Refusal::ALL);
}

fn main() {
    let mut held = Held::default();
    held.same("the archive's version", VERSION, version());
    hours(&mut held);
    answers(&mut held);
    closed(&mut held);
    refusals(&mut held);
    if held.failed > 0 {
        eprintln!("{} of {} facts of the Rust wrapper are not so", held.failed, held.facts);
        exit(1);
    }
    println!("{} facts of the Rust wrapper: all as the documents say", held.facts);
}
