// Makes more than ten million exported calls in one process and holds them to the slow model, with the clock, the request numbers
// and the counts moved near their ends through the lent tables. On large tables, where the model is slow, one call of many is held
// to it. The argument, if any, is a seed.
use std::env::args;
use tests::held::Held;
use tests::model::{Call, KINDS};
use tests::program::{end, fail, seed};
use tests::random::tables::call;
use tests::random::Random;
use tests::tables::{head, setup_with, Head, Hours, Request, Tables, ALL_OPEN};
use tests::tables::{END, MOST_COUNTED, MOST_PERIOD, MOST_PER_HOUR, MOST_RECORDS};

// At least so many calls, all phases together.
const CALLS: u64 = 10_000_000;

// After so many calls of a phase values are moved.
const BEFORE_MOVING: u64 = 1_000;

const REFUSALS: [u64; 8] = [6, 7, 15, 8, 9, 10, 11, 12];

// With so many slots an hour a tick has to lead from an open hour to a closed one, or back.
const LEFT_HOURS: [u64; 5] = [1, 3, 360, 3_600, MOST_PER_HOUR];

// On large tables a shift of so many has to come among the calls that are held to the model.
const LARGE_SHIFT: u64 = 1_000;

// Calls from an open on.
struct Phase {
    name: &'static str,
    records: usize,
    clients: u64,
    period: u64,
    slots_per_hour: u64,
    hours: Hours,
    // deadlines lie at most so far ahead of the clock
    ahead: u64,
    calls: u64,
    // one call of so many is held to the model
    one_of: u64,
    moves: fn(&mut Tables),
}

const USUAL: Phase = Phase {
    name: "from open on",
    records: 6,
    clients: 3,
    period: 10,
    slots_per_hour: 1,
    hours: ALL_OPEN,
    ahead: 12,
    calls: 2_000_000,
    one_of: 1,
    moves: |_| {},
};

const PHASES: [Phase; 13] = [
    USUAL,
    Phase {
        name: "a period of one slot",
        period: 1,
        calls: 1_000_000,
        ..USUAL
    },
    Phase {
        name: "few slots, the longest period",
        records: 8,
        clients: 4,
        period: MOST_PERIOD,
        ahead: 5,
        calls: 1_000_000,
        ..USUAL
    },
    Phase {
        name: "every second hour closed, of one slot each",
        hours: EVERY_SECOND,
        calls: 1_000_000,
        ..USUAL
    },
    Phase {
        name: "few hours open, to the clock's end",
        slots_per_hour: 3,
        hours: FEW,
        ahead: 30,
        calls: 1_500_000,
        moves: |tables| move_clock(tables, END - 300_000),
        ..USUAL
    },
    Phase {
        name: "most hours open, of many slots",
        records: 40,
        slots_per_hour: 360,
        hours: MOST,
        ahead: 60,
        calls: 500_000,
        ..USUAL
    },
    Phase {
        name: "every second hour closed, of very many slots",
        records: 40,
        slots_per_hour: 3_600,
        hours: EVERY_SECOND,
        ahead: 60,
        calls: 200_000,
        ..USUAL
    },
    Phase {
        name: "as many slots an hour as can be, to the clock's end",
        slots_per_hour: MOST_PER_HOUR,
        hours: EVERY_SECOND,
        calls: 500_000,
        moves: |tables| empty(tables, END - 150_000),
        ..USUAL
    },
    Phase {
        name: "the clock to its end",
        moves: |tables| move_clock(tables, END - 800_000),
        ..USUAL
    },
    Phase {
        name: "request numbers to their end",
        calls: 1_500_000,
        moves: |tables| tables.head.last = END - 400_000,
        ..USUAL
    },
    Phase {
        name: "counts to their bound",
        period: MOST_PERIOD,
        calls: 1_000_000,
        moves: |tables| move_counts(tables, MOST_COUNTED - 50_000),
        ..USUAL
    },
    Phase {
        name: "large tables, most hours open",
        records: MOST_RECORDS,
        clients: 256,
        period: 1_000,
        slots_per_hour: 16,
        hours: MOST,
        ahead: 4_000,
        calls: 150_000,
        one_of: 200,
        ..USUAL
    },
    Phase {
        name: "large tables",
        records: MOST_RECORDS,
        clients: 256,
        period: 1_000,
        ahead: 4_000,
        calls: 300_000,
        one_of: 200,
        ..USUAL
    },
];

const EVERY_SECOND: Hours = Hours { marks: [0xAA; 21] };
const FEW: Hours = Hours {
    marks: [
        0x11, 0, 0x80, 0x01, 0xC3, 0, 0, 0x3C, 0, 0x24, 0xFF, 0, 1, 2, 4, 8, 16, 32, 64, 128, 0x81,
    ],
};
const MOST: Hours = Hours {
    marks: [
        0xFE, 0x7F, 0xFF, 0xFF, 0xE7, 0xFF, 0x0F, 0xFF, 0xF0, 0xFF, 0xFF, 0xFD, 0xFF, 0xFF, 0x7F, 0xFE, 0xFF, 0xFF, 0xFF, 0xDB,
        0xFF,
    ],
};

// Near to this clock, by whole weeks, so that the same slots are open. The deadlines move with it.
fn move_clock(tables: &mut Tables, to: u64) {
    let Head {
        setup, clock, waiting, ..
    } = tables.head;
    let week = 168 * setup.slots_per_hour;
    let by = (to - clock) / week * week;
    tables.head.clock += by;
    for request in &mut tables.waiting[..waiting as usize] {
        request.deadline += by;
    }
}

// As if all had been served by this clock.
fn empty(tables: &mut Tables, clock: u64) {
    for place in 0..tables.head.waiting as usize {
        let client = tables.waiting[place].client as usize;
        tables.clients_mut()[client].served += 1;
    }
    tables.waiting.fill(Request::default());
    (tables.head.clock, tables.head.waiting) = (clock, 0);
}

// As if so many had been submitted, most of them served.
fn move_counts(tables: &mut Tables, to: u32) {
    for client in tables.clients_mut() {
        let more = to - client.submitted;
        client.submitted += more;
        client.dropped += more / 3;
        client.served += more - more / 3;
    }
}

fn run(phase: &Phase, held: &mut Held, random: &mut Random) -> Result<(), String> {
    held.lend(&Tables::zero(head(phase.clients, 0, 0, 0, 0), phase.records));
    held.call(&Call::Open {
        setup: setup_with(phase.clients, phase.period, phase.slots_per_hour),
        hours: phase.hours,
    })?;
    for number in 0..phase.calls {
        if number == BEFORE_MOVING {
            let mut moved = held.tables().clone();
            (phase.moves)(&mut moved);
            held.lend(&moved);
        }
        let call = call(random, held.tables(), phase.ahead);
        if number.is_multiple_of(phase.one_of) {
            held.call(&call).map_err(|e| format!("call {number}, {e}"))?;
        } else {
            held.make_alone(&call);
        }
    }
    Ok(())
}

// What had to occur and did not, or the other way about.
fn missing(held: &Held) -> Vec<String> {
    let mut missing = held.tally.missing(&KINDS, &REFUSALS);
    missing.extend(held.shifts.missing(LARGE_SHIFT));
    missing.extend(held.hours.missing());
    missing.extend(held.hours.missing_near_the_end());
    missing.extend(held.hours.missing_changes(&LEFT_HOURS));
    if held.made < CALLS {
        missing.push(format!("fewer than {CALLS} calls"));
    }
    // accepted calls leave sound tables, and moved values are in bounds
    if held.tally.refused(5) > 0 {
        missing.push("refusal 5 on sound tables".into());
    }
    missing
}

fn main() {
    let arguments: Vec<String> = args().collect();
    let mut random = Random::of_part(seed(arguments.get(1)), 0);
    let mut held = Held::over(&Tables::zero(Head::default(), 0));
    for phase in &PHASES {
        let ran = run(phase, &mut held, &mut random);
        ran.unwrap_or_else(|difference| fail(format!("{}: {difference}", phase.name)));
    }
    println!("{}\n{}\n{}", held.tally, held.shifts, held.hours);
    println!("{}", held.hours.near_the_end());
    println!("{} calls, {} of them held to the model: all as it says", held.made, held.held);
    end(missing(&held));
}
