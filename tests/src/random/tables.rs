//! Random tables that are sound, many of them at the bounds, and calls on them.
use crate::model::{Call, Fault, Week};
use crate::random::hours::{edge, end_of_hour, hours, PER_HOUR};
use crate::random::Random;
use crate::tables::{head, request, Head, Request, Tables, END, MOST_AHEAD, MOST_COUNTED, MOST_PERIOD};
use std::collections::BTreeSet;

// Tables of so many records, of which so many wait, or as many as there are open slots as far ahead as a deadline can be.
pub fn sound(random: &mut Random, records: usize, waiting: usize) -> Tables {
    sound_with(random, records, waiting, &PER_HOUR)
}

// The same, with as many slots an hour as one of these.
pub fn sound_with(random: &mut Random, records: usize, waiting: usize, per_hour: &[u64]) -> Tables {
    let clients = random.one_of(&[1, 2, 5, 256]);
    let slots_per_hour = random.one_of(per_hour);
    let hours = hours(random);
    let clock = clock(random, slots_per_hour);
    let week = Week::new(slots_per_hour, hours, Fault::None);
    let slots: Vec<u64> = week.open_slots(clock, clock + MOST_AHEAD).take(waiting).collect();
    let waiting = slots.len();
    let last = last(random, waiting as u64);
    let ahead = random.one_of(&[1, 4, 2 * waiting as u64 + 1, MOST_AHEAD]);
    let mut tables = Tables::zero(head(clients, period(random, clock), clock, last, waiting as u64), records);
    (tables.head.setup.slots_per_hour, tables.hours) = (slots_per_hour, hours);
    let earliest = earliest(random, &slots);
    let requests = requests(random, &tables.head, ahead, &earliest);
    tables.waiting[..waiting].copy_from_slice(&requests);
    count(random, &mut tables);
    tables
}

fn clock(random: &mut Random, slots_per_hour: u64) -> u64 {
    let any = random.between(0, END);
    let near = END - random.between(0, 9);
    let edge = edge(random, slots_per_hour);
    random.one_of(&[0, 1, 99, any, near, END - 1, END, edge, edge, edge])
}

// With the next clock as the period, the next tick starts one.
fn period(random: &mut Random, clock: u64) -> u64 {
    let any = random.between(1, MOST_PERIOD);
    let next = (clock + 1).min(MOST_PERIOD);
    random.one_of(&[1, 2, 3, 10, any, next, MOST_PERIOD])
}

fn last(random: &mut Random, waiting: u64) -> u64 {
    let any = random.between(waiting, END);
    random.one_of(&[waiting, waiting + 5, any, END - 1, END])
}

// Deadlines with which each has to have the slot of its place: the slot's end, or later but not behind the next open slot's start.
fn earliest(random: &mut Random, slots: &[u64]) -> Vec<u64> {
    let is_late = random.below(2) == 0;
    let next = slots.iter().skip(1).copied().chain(slots.last().map(|last| last + 1));
    let ends = slots.iter().map(|slot| slot + 1).zip(next);
    ends.map(|(end, next)| if is_late { random.between(end, next) } else { end })
        .collect()
}

// In chart order. Deadlines lie at most so far ahead of the clock, or as near as there is room, which are these.
fn requests(random: &mut Random, head: &Head, ahead: u64, earliest: &[u64]) -> Vec<Request> {
    let mut aheads: Vec<u64> = (0..head.waiting).map(|_| random.between(1, ahead)).collect();
    aheads.sort();
    let with_room = earliest.iter().zip(aheads).map(|(&end, ahead)| (head.clock + ahead).max(end));
    let mut numbers = numbers(random, head.waiting as usize, head.last);
    let client = |random: &mut Random| random.below(head.setup.clients as usize) as u64;
    let mut requests: Vec<Request> = with_room
        .map(|deadline| request(deadline, numbers.swap_remove(random.below(numbers.len())), client(random)))
        .collect();
    requests.sort_by_key(|request| (request.deadline, request.number));
    if random.below(4) == 0 {
        repeat_a_number(random, &mut requests);
    }
    requests
}

// So many different numbers up to the last one given, often that one among them.
fn numbers(random: &mut Random, count: usize, last: u64) -> Vec<u64> {
    let mut numbers = BTreeSet::new();
    let least = random.one_of(&[1, 1 + last - count as u64]);
    while numbers.len() < count {
        numbers.insert(random.between(least, last));
    }
    numbers.into_iter().collect()
}

// Two records with one number are sound if their deadlines differ.
fn repeat_a_number(random: &mut Random, requests: &mut [Request]) {
    let Some(last) = requests.len().checked_sub(2) else { return };
    if requests[last].deadline < requests[last + 1].deadline {
        requests[last + 1].number = requests[random.below(last + 1)].number;
    }
}

// Counts of served and dropped, few or up to the bound, and submitted as their sum with the waiting records.
fn count(random: &mut Random, tables: &mut Tables) {
    for place in 0..tables.head.waiting as usize {
        let client = tables.waiting[place].client as usize;
        tables.clients_mut()[client].submitted += 1;
    }
    for client in tables.clients_mut() {
        let most = MOST_COUNTED - client.submitted;
        let sum = random.one_of(&[0, 3, 7, most / 2, most - 1, most]);
        let dropped = random.between(0, sum.into()) as u32;
        client.dropped = random.one_of(&[0, dropped, sum]);
        client.served = sum - client.dropped;
        client.submitted += sum;
    }
}

// A call on tables, one that is accepted for the most part unless they are damaged.
pub fn call(random: &mut Random, tables: &Tables, ahead: u64) -> Call {
    let Head { setup, clock, .. } = tables.head;
    let client = random.next() % setup.clients.max(1);
    let deadline = clock.saturating_add(random.between(1, ahead));
    let end_of_hour = end_of_hour(random, setup.slots_per_hour, clock);
    match random.below(20) {
        0..=7 => Call::Submit { client, deadline },
        8 => Call::Submit {
            client,
            deadline: random.one_of(&[deadline, end_of_hour]),
        },
        9..=16 => Call::Tick,
        17 => Call::Report { client },
        18 => Call::Chart {
            entries: tables.waiting.len(),
        },
        _ => random.one_of(&[
            Call::Submit {
                client: setup.clients,
                deadline,
            },
            Call::Submit { client, deadline: clock },
            Call::Submit {
                client,
                deadline: clock.saturating_add(MOST_AHEAD + 1),
            },
            Call::Report { client: setup.clients },
            Call::Chart {
                entries: (tables.head.waiting as usize).saturating_sub(1),
            },
        ]),
    }
}
