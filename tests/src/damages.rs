//! Damages to sound tables: for each clause of "sound" several edits that break it, most of them without breaking another, and
//! edits of the lengths, which meet refusal 4. Edits may come one behind the other, so that each takes tables with anything in
//! them; where they have no place for it, it does nothing.
use crate::model::sound::CLAUSES;
use crate::model::{Fault, Week};
use crate::random::hours::{close, open};
use crate::random::Random;
use crate::tables::{Client, Hours, Request, Tables, WIDTH};
use crate::tables::{END, MOST_AHEAD, MOST_COUNTED, MOST_PERIOD, MOST_PER_HOUR, MOST_RECORDS};

pub type Damage = fn(&mut Tables, &mut Random);

// In the order of the clauses.
pub const DAMAGES: [&[Damage]; CLAUSES.len()] = [
    &[no_clients, too_many_clients],
    &[
        |t, _| t.head.setup.period = 0,
        |t, _| t.head.setup.period = MOST_PERIOD + 1,
        |t, _| t.head.setup.period = u64::MAX,
    ],
    &[
        |t, _| t.head.setup.slots_per_hour = 0,
        |t, _| t.head.setup.slots_per_hour = MOST_PER_HOUR + 1,
        |t, random| t.head.setup.slots_per_hour = MOST_PER_HOUR + random.between(2, 99),
        // in bounds but for 32 bits
        |t, _| t.head.setup.slots_per_hour |= 1 << 32,
        |t, _| t.head.setup.slots_per_hour = u64::MAX,
    ],
    &[|t, _| t.hours = Hours::default()],
    &[
        |t, _| move_clock(t, END + 1),
        |t, random| move_clock(t, END + random.between(2, 99)),
        |t, _| move_clock(t, 1 << 63),
        last_clock_of_64_bits,
    ],
    &[
        |t, _| t.head.last = END + 1,
        |t, random| t.head.last = END + random.between(2, 99),
        |t, _| t.head.last = u64::MAX,
    ],
    &[swap_neighbours, swap_any, equal_in_both, larger_number_first],
    &[
        |t, _| first_deadline(t, t.head.clock),
        |t, random| first_deadline(t, t.head.clock.saturating_sub(random.between(1, 9))),
        |t, _| first_deadline(t, 0),
        |t, _| last_deadline(t, t.head.clock.saturating_add(MOST_AHEAD + 1)),
        |t, random| last_deadline(t, t.head.clock.saturating_add(MOST_AHEAD + random.between(2, 99))),
        |t, _| last_deadline(t, u64::MAX),
        |t, random| edit_waiting(t, random, |request| request.deadline = 0),
    ],
    &[
        |t, random| edit_waiting(t, random, |request| request.number = 0),
        |t, random| edit_waiting(t, random, |request| request.number = u64::MAX),
        number_not_given,
        count_a_free_record,
    ],
    &[
        |t, random| move_to_client(t, random, |clients| clients),
        |t, random| move_to_client(t, random, |clients| clients.saturating_add(9)),
        |t, random| move_to_client(t, random, |_| 1 << 32),
        |t, random| move_to_client(t, random, |_| u64::MAX),
    ],
    &[
        overfill_anywhere,
        overfill_at_last,
        overfill_open_slots,
        close_hours,
        close_all_but_one,
    ],
    &[
        |t, random| edit_free(t, random, |record, any| record.deadline = any),
        |t, random| edit_free(t, random, |record, any| record.number = any),
        |t, random| edit_free(t, random, |record, any| record.client = any),
        leave_one_uncounted,
    ],
    &[
        |t, random| edit_client(t, random, |client| client.submitted = client.submitted.wrapping_add(1)),
        |t, random| edit_client(t, random, |client| client.submitted = client.submitted.wrapping_sub(1)),
        |t, random| edit_client(t, random, |client| client.served = client.served.wrapping_add(1)),
        |t, random| edit_client(t, random, |client| client.served = client.served.wrapping_sub(1)),
        |t, random| edit_client(t, random, |client| client.dropped = client.dropped.wrapping_add(1)),
        |t, random| edit_client(t, random, |client| client.dropped = client.dropped.wrapping_sub(1)),
        // right but for 32 bits
        |t, random| {
            edit_client(t, random, |client| {
                client.served ^= 1 << 31;
                client.dropped ^= 1 << 31;
            })
        },
    ],
    &[
        |t, random| submit_past_the_bound(t, random, MOST_COUNTED + 1),
        |t, random| submit_past_the_bound(t, random, MOST_COUNTED + 9),
        |t, random| submit_past_the_bound(t, random, u32::MAX),
    ],
];

// Three times the first is 1 but for a carry out of 64 bits, three times the second but for one out of 32.
pub const THIRDS: [u64; 2] = [0xAAAA_AAAA_AAAA_AAAB, 0xAAAA_AAAB];

// Each leaves another length, or a waiting count above the length.
pub const LENGTHS: [Damage; 15] = [
    |t, _| t.waiting.clear(),
    |t, random| t.waiting.resize(MOST_RECORDS + 1 + random.below(3), Request::default()),
    |t, _| shorten(t, 1),
    |t, random| lengthen(t, random, 1),
    |t, random| lengthen(t, random, 2),
    |t, _| shorten(t, WIDTH),
    |t, random| lengthen(t, random, WIDTH),
    |t, random| carry(t, random, THIRDS[0]),
    |t, random| carry(t, random, THIRDS[1]),
    |t, _| t.head.setup.clients = t.head.setup.clients.wrapping_add(1),
    |t, _| t.head.setup.clients = t.head.setup.clients.wrapping_sub(1),
    |t, _| t.head.setup.clients = u64::MAX,
    |t, _| t.head.waiting = t.waiting.len() as u64 + 1,
    |t, _| t.head.waiting = u64::MAX,
    |t, _| t.head.waiting = 1 << 32,
];

fn waiting_count(t: &Tables) -> usize {
    t.waiting.len().min(t.head.waiting as usize)
}

fn uncount(t: &mut Tables, client: u64) {
    if let Some(client) = t.clients_mut().get_mut(client as usize) {
        client.submitted = client.submitted.wrapping_sub(1);
    }
}

// None waits.
fn take_out_all(t: &mut Tables) {
    for place in 0..waiting_count(t) {
        uncount(t, t.waiting[place].client);
    }
    t.waiting.fill(Request::default());
    t.head.waiting = 0;
}

fn no_clients(t: &mut Tables, _: &mut Random) {
    take_out_all(t);
    t.head.setup.clients = 0;
    t.client_numbers.clear();
}

fn too_many_clients(t: &mut Tables, random: &mut Random) {
    t.head.setup.clients = random.between(257, 400);
    t.client_numbers.resize(WIDTH * t.head.setup.clients as usize, 0);
}

// The deadlines move with it.
fn move_clock(t: &mut Tables, to: u64) {
    let by = to.wrapping_sub(t.head.clock);
    t.head.clock = to;
    for place in 0..waiting_count(t) {
        let deadline = &mut t.waiting[place].deadline;
        *deadline = deadline.wrapping_add(by);
    }
}

fn last_clock_of_64_bits(t: &mut Tables, _: &mut Random) {
    take_out_all(t);
    t.head.clock = u64::MAX;
}

fn swap_neighbours(t: &mut Tables, random: &mut Random) {
    if let Some(place) = before_another(t, random) {
        t.waiting.swap(place, place + 1);
    }
}

// A place among the waiting with another behind it.
fn before_another(t: &Tables, random: &mut Random) -> Option<usize> {
    let places = waiting_count(t).saturating_sub(1);
    (places > 0).then(|| random.below(places))
}

fn swap_any(t: &mut Tables, random: &mut Random) {
    if let Some(place) = before_another(t, random) {
        t.waiting.swap(place, random.below(place + 1) + 1);
    }
}

fn equal_in_both(t: &mut Tables, random: &mut Random) {
    if let Some(place) = before_another(t, random) {
        (t.waiting[place].deadline, t.waiting[place].number) = (t.waiting[place + 1].deadline, t.waiting[place + 1].number);
    }
}

fn larger_number_first(t: &mut Tables, random: &mut Random) {
    let Some(place) = before_another(t, random) else { return };
    t.waiting[place].deadline = t.waiting[place + 1].deadline;
    let (one, other) = (t.waiting[place].number, t.waiting[place + 1].number);
    (t.waiting[place].number, t.waiting[place + 1].number) = (one.max(other), one.min(other));
}

fn first_deadline(t: &mut Tables, deadline: u64) {
    if waiting_count(t) > 0 {
        t.waiting[0].deadline = deadline;
    }
}

fn last_deadline(t: &mut Tables, deadline: u64) {
    if let Some(last) = waiting_count(t).checked_sub(1) {
        t.waiting[last].deadline = deadline;
    }
}

fn edit_waiting(t: &mut Tables, random: &mut Random, edit: impl Fn(&mut Request)) {
    let count = waiting_count(t);
    if count > 0 {
        edit(&mut t.waiting[random.below(count)]);
    }
}

fn number_not_given(t: &mut Tables, random: &mut Random) {
    let number = t.head.last.saturating_add(random.between(1, 3));
    edit_waiting(t, random, |request| request.number = number);
}

// It has number 0.
fn count_a_free_record(t: &mut Tables, _: &mut Random) {
    if waiting_count(t) < t.waiting.len() {
        t.head.waiting += 1;
    }
}

// Its client before has submitted one less.
fn move_to_client(t: &mut Tables, random: &mut Random, client: impl Fn(u64) -> u64) {
    let (count, client) = (waiting_count(t), client(t.head.setup.clients));
    if count > 0 {
        let place = random.below(count);
        uncount(t, t.waiting[place].client);
        t.waiting[place].client = client;
    }
}

// The records up to this place have to end before there is room for the last of them.
fn overfill(t: &mut Tables, place: usize) {
    let full = t.head.clock.saturating_add(place as u64);
    let records = &mut t.waiting[..=place];
    for record in records.iter_mut() {
        record.deadline = record.deadline.min(full);
    }
    records.sort_by_key(|record| (record.deadline, record.number));
}

fn overfill_anywhere(t: &mut Tables, random: &mut Random) {
    if let Some(place) = before_another(t, random) {
        overfill(t, place + 1);
    }
}

fn overfill_at_last(t: &mut Tables, _: &mut Random) {
    if waiting_count(t) > 1 {
        overfill(t, waiting_count(t) - 1);
    }
}

// As above, but for the open slots: with all hours open there would often be room.
fn overfill_open_slots(t: &mut Tables, random: &mut Random) {
    let Some(place) = before_another(t, random) else { return };
    let week = Week::new(t.head.setup.slots_per_hour, t.hours, Fault::None);
    let last = t.waiting[place + 1].deadline;
    let Some(full) = week.open_slots(t.head.clock, last).nth(place + 1) else {
        return;
    };
    let records = &mut t.waiting[..=place + 1];
    for record in records.iter_mut() {
        record.deadline = record.deadline.min(full);
    }
    records.sort_by_key(|record| (record.deadline, record.number));
}

// The hours up to the deadline of one that waits are closed, and another hour is open.
fn close_hours(t: &mut Tables, random: &mut Random) {
    let count = waiting_count(t);
    if count == 0 || t.head.setup.slots_per_hour == 0 {
        return;
    }
    let deadline = t.waiting[random.below(count)].deadline;
    let [first, end] = [t.head.clock, deadline].map(|slot| slot / t.head.setup.slots_per_hour);
    for hour in (first..=end).take(167) {
        close(&mut t.hours, hour % 168);
    }
    open(&mut t.hours, first.wrapping_sub(1) % 168);
}

fn close_all_but_one(t: &mut Tables, random: &mut Random) {
    t.hours = Hours::default();
    open(&mut t.hours, random.between(0, 167));
}

fn edit_free(t: &mut Tables, random: &mut Random, edit: impl Fn(&mut Request, u64)) {
    let free = t.waiting.len() - waiting_count(t);
    let value = random.one_of(&[1, 1 << 31, 1 << 32, 1 << 63, u64::MAX]);
    if free > 0 {
        let place = t.waiting.len() - 1 - random.below(free);
        edit(&mut t.waiting[place], value);
    }
}

// The last of the waiting; its client has submitted one less.
fn leave_one_uncounted(t: &mut Tables, _: &mut Random) {
    if let Some(last) = waiting_count(t).checked_sub(1) {
        uncount(t, t.waiting[last].client);
        t.head.waiting = last as u64;
    }
}

fn edit_client(t: &mut Tables, random: &mut Random, edit: impl Fn(&mut Client)) {
    let clients = t.clients_mut();
    if !clients.is_empty() {
        edit(&mut clients[random.below(clients.len())]);
    }
}

// The sum stays right.
fn submit_past_the_bound(t: &mut Tables, random: &mut Random, count: u32) {
    edit_client(t, random, |client| {
        client.served = client.served.wrapping_add(count.wrapping_sub(client.submitted));
        client.submitted = count;
    });
}

// So many of the client table's numbers less, or more.
fn shorten(t: &mut Tables, by: usize) {
    t.client_numbers.truncate(t.client_numbers.len().saturating_sub(by));
}

fn lengthen(t: &mut Tables, random: &mut Random, by: usize) {
    t.client_numbers.extend((0..by).map(|_| random.next() as u32));
}

// A length that is no records, and three times the clients but for a carry.
fn carry(t: &mut Tables, random: &mut Random, third: u64) {
    let odd = 1 + random.below(2);
    lengthen(t, random, odd);
    t.head.setup.clients = third.wrapping_mul(t.client_numbers.len() as u64);
}
