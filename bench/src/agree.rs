//! The queues held to each other: on random tables, sound and damaged, every call must come to the same.
use crate::by_hand::lent::Lent;
use crate::cases::{Came, Cases};
use crate::damage::overfill_closed_hour;
use crate::fail;
use crate::queues::{Queue, QUEUES};
use tests::calls::answer;
use tests::damages::{Damage, DAMAGES, LENGTHS};
use tests::model::Call;
use tests::random::hours::{end_of_hour, hours};
use tests::random::tables::sound_with;
use tests::random::Random;
use tests::tables::*;
use tests::tally::Tally;

const CASES: usize = 120_000;
const KINDS: [u64; 8] = [OPENED, KEPT, DROPPED, SERVED, IDLE, REPORT, CHART, CLOSED];
const REFUSALS: [u64; 14] = [2, 3, 4, 5, 6, 7, 8, 9, 10, 11, 12, 13, 14, 15];

// Besides those of the tests, hours that are short enough for many of them in one table, and long enough for four records.
const PER_HOUR: [u64; 12] = [1, 2, 3, 7, 8, 15, 16, 16, 64, 360, 3_600, 360_000];

// What stands in values and in outputs before a call, and is no number that one writes.
const UNWRITTEN: u64 = 0xA5A5_A5A5_A5A5_A5A5;

// Most of them small.
fn sound_tables(random: &mut Random) -> Tables {
    let records = match random.below(64) {
        0 => MOST_RECORDS,
        1 => 200,
        _ => 1 + random.below(20),
    };
    let any = random.below(records + 1);
    let waiting = random.one_of(&[any, any, records - 1, records]);
    sound_with(random, records, waiting, &PER_HOUR)
}

// One near the clock, of a record, at the end of an hour, or at the bound; seldom one that is refused.
fn random_deadline(random: &mut Random, t: &Lent, waiting: usize) -> u64 {
    let (clock, slots_per_hour) = (t.head.clock, t.head.setup.slots_per_hour);
    let near = clock.wrapping_add(random.between(1, waiting as u64 + 2));
    let of_a_record = t.waiting[..waiting]
        .get(random.below(waiting + 1))
        .map_or(near, |w| w.deadline);
    let end_of_hour = end_of_hour(random, slots_per_hour, clock);
    let good = random.one_of(&[
        near,
        near,
        of_a_record,
        of_a_record,
        end_of_hour,
        clock.wrapping_add(MOST_AHEAD),
    ]);
    let beyond = random.one_of(&[0, MOST_AHEAD + 1, u64::MAX]);
    random.mostly(good, clock.wrapping_add(beyond))
}

fn random_open(random: &mut Random, lent: u64) -> Call {
    let others = random.one_of(&[0, lent + 1, 257]);
    let in_bounds = random.between(1, MOST_PERIOD);
    let no_period = random.one_of(&[0, MOST_PERIOD + 1]);
    let no_hour = random.one_of(&[0, MOST_PER_HOUR + 1, u64::MAX]);
    let setup = Setup {
        clients: random.mostly(lent, others),
        period: random.mostly(in_bounds, no_period),
        slots_per_hour: random.one_of(&PER_HOUR),
    };
    Call::Open {
        setup: Setup {
            slots_per_hour: random.mostly(setup.slots_per_hour, no_hour),
            ..setup
        },
        hours: if random.below(12) > 0 {
            hours(random)
        } else {
            Hours::default()
        },
    }
}

// Each of the five, with arguments that sound tables take for the most part. The open is last: it leaves the tables empty.
fn random_calls(random: &mut Random, t: &Lent) -> [Call; 5] {
    let clients = t.head.setup.clients;
    let (records, lent) = (t.waiting.len(), t.clients.len() as u64);
    let waiting = records.min(t.head.waiting as usize);
    let exists = random.next() % clients.max(1);
    let client = random.mostly(exists, clients);
    let deadline = random_deadline(random, t, waiting);
    let entries = random.mostly(records, waiting.saturating_sub(1));
    [
        Call::Report { client },
        Call::Chart { entries },
        Call::Submit { client, deadline },
        Call::Tick,
        random_open(random, lent),
    ]
}

// Makes the call by each queue on its copy of the tables. Gives what it came to, if all came to the same.
fn agreed(case: usize, call: Call, copies: &mut [Tables]) -> Came {
    let before = copies[0].clone();
    let entries = if let Call::Chart { entries } = call { entries } else { 0 };
    let make = |(queue, t): (&Queue, &mut Tables)| {
        let (mut output, mut values) = (vec![UNWRITTEN; entries], [UNWRITTEN; 5]);
        let kind = queue.make(&call, t, &mut output, &mut values);
        (kind, values, output)
    };
    let mut came: Vec<_> = QUEUES.iter().zip(&mut *copies).map(make).collect();
    if came.iter().any(|other| *other != came[0]) || copies.iter().any(|other| *other != copies[0]) {
        println!("case {case}: {call:?} on {before:?}");
        for (queue, (came, tables)) in QUEUES.iter().zip(came.iter().zip(copies)) {
            println!("{}: {came:?}, {tables:?}", queue.name);
        }
        fail("they differ");
    }
    let (kind, values, output) = came.swap_remove(0);
    Came {
        before,
        answer: answer(kind, &values),
        output,
    }
}

// Every second of the tables is damaged. These are only for the queues that check them, which come first.
pub fn agree() {
    let damages = DAMAGES
        .concat()
        .into_iter()
        .chain(LENGTHS)
        .chain([overfill_closed_hour as Damage]);
    let damages: Vec<Damage> = damages.collect();
    let mut random = Random(0x9E37_79B9_7F4A_7C15);
    let (mut tally, mut cases, mut refused) = (Tally::default(), Cases::default(), vec![0; damages.len()]);
    for case in 0..CASES {
        let mut t = sound_tables(&mut random);
        let damage = (case % 2 == 1).then_some(case / 2 % damages.len());
        if let Some(damage) = damage {
            damages[damage](&mut t, &mut random);
        }
        let mut copies = vec![t; if damage.is_some() { 2 } else { QUEUES.len() }];
        for call in random_calls(&mut random, &Lent::whole(&mut copies[0])) {
            let came = agreed(case, call, &mut copies);
            tally.count(&came.answer);
            match (damage, &came.answer[..]) {
                (Some(damage), [REFUSED, 4 | 5]) => refused[damage] += 1,
                (Some(_), _) => {}
                (None, _) => cases.count(&came),
            }
        }
    }
    let ways = damages.len();
    println!("{CASES} random tables, half of them damaged in one of {ways} ways: all agree on every call\n{tally}\n{cases}");
    let missing = [tally.missing(&KINDS, &REFUSALS), cases.missing()].concat();
    if !missing.is_empty() || refused.contains(&0) {
        fail(&format!("{missing:?}; refused for each damage: {refused:?}"));
    }
}
