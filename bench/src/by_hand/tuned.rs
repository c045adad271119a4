//! The calls by hand with the same checks as the proved ones, in one pass that checks and counts.
use super::calls::Calls;
use super::lent::{refused_if, Lent};
use super::slots::{are_all_closed, Rooms, Slots};
use std::array::from_fn;
use tests::tables::*;

pub struct Tuned;

// With so many clients or fewer, less has to be zeroed for the tallies.
const FEW_CLIENTS: usize = 16;

impl Calls for Tuned {
    #[inline(always)]
    fn check<S: Slots>(t: &Lent) -> Result<S, u64> {
        let (clients, n) = shape(t)?;
        let slots = S::new(t.head, t.hours);
        let is_sound = if clients <= FEW_CLIENTS {
            is_sound::<S, FEW_CLIENTS>(&slots, t, clients, n)
        } else {
            is_sound::<S, MOST_CLIENTS>(&slots, t, clients, n)
        };
        refused_if(!is_sound, 5)?;
        Ok(slots)
    }
}

// Refusal 4, and what refusal 5 asks of head and hours. Ok is the number of clients and the waiting count.
#[inline(always)]
fn shape(t: &Lent) -> Result<(usize, usize), u64> {
    let head = *t.head;
    let Setup {
        clients,
        period,
        slots_per_hour,
    } = head.setup;
    if !t.has_lengths_for(clients) || (t.waiting.len() as u64) < head.waiting {
        return Err(4);
    }
    let is_head_within = (1..=MOST_CLIENTS as u64).contains(&clients) && (1..=MOST_PERIOD).contains(&period);
    let are_hours_within = (1..=MOST_PER_HOUR).contains(&slots_per_hour) && !are_all_closed(t.hours);
    refused_if(!is_head_within || !are_hours_within || END < head.clock || END < head.last, 5)?;
    Ok((clients as usize, head.waiting as usize))
}

// Of each client, its records so far. Four, for records in turn: with one, records of one client would wait for each other's
// count to be stored.
type Tallies<const MOST: usize> = [[u16; MOST]; 4];

// The tables, of at most so many clients. Not inlined, so that it is compiled alike for every call.
#[inline(never)]
fn is_sound<S: Slots, const MOST: usize>(slots: &S, t: &Lent, clients: usize, n: usize) -> bool {
    let (waiting, behind) = t.waiting.split_at(n);
    let mut tallies = [[0; MOST]; 4];
    are_next(slots, t.head, waiting, &mut tallies) && are_zero(behind) && are_balanced(t, clients, &tallies)
}

// Deadlines are in order, so that the first shows that none is too early, and the last that none is too far. A function of its
// own, as the pass over the clients is: in one function both took longer.
#[inline(never)]
fn are_next<S: Slots, const MOST: usize>(slots: &S, head: &Head, waiting: &[Request], tallies: &mut Tallies<MOST>) -> bool {
    let (clients, clock, last) = (head.setup.clients, head.clock, head.last);
    // as one number, for one comparison
    let key = |w: &Request| (w.deadline as u128) << 64 | w.number as u128;
    // its number is given, its client exists, and it comes behind the one before it
    let is_next = |before: &Request, w: &Request| w.number.wrapping_sub(1) < last && w.client < clients && key(before) < key(w);
    // the one before by value, since a reference to it would be a second pointer to move on
    let (mut rooms, mut before) = (slots.rooms(0), request(clock, u64::MAX, 0));
    let (eights, odd) = waiting.as_chunks::<8>();
    for eight in eights {
        if !rooms.for_eight(eight) {
            return false;
        }
        for (i, w) in eight.iter().enumerate() {
            if !is_next(&before, w) {
                return false;
            }
            tallies[i % 4][w.client as usize % MOST] += 1;
            before = *w;
        }
    }
    for (i, w) in odd.iter().enumerate() {
        if !rooms.for_one(w) || !is_next(&before, w) {
            return false;
        }
        tallies[i % 4][w.client as usize % MOST] += 1;
        before = *w;
    }
    before.deadline <= clock + MOST_AHEAD
}

// An exit every sixteenth record, so that the sixteen vectorise.
#[inline(always)]
fn are_zero(behind: &[Request]) -> bool {
    let bits = |records: &[Request]| records.iter().fold(0, |bits, w| bits | w.deadline | w.number | w.client);
    let (sixteens, odd) = behind.as_chunks::<16>();
    sixteens.iter().all(|sixteen| bits(sixteen) == 0) && bits(odd) == 0
}

// Where the three counts are within bounds their sum cannot wrap, so that 32 bits do. What waits is added up first: in
// one loop with the records it took longer.
#[inline(never)]
fn are_balanced<const MOST: usize>(t: &Lent, clients: usize, tallies: &Tallies<MOST>) -> bool {
    let [a, b, c, d] = tallies;
    let waiting: [u16; MOST] = from_fn(|i| a[i] + b[i] + c[i] + d[i]);
    let mut wrong = 0;
    for (client, &waiting) in t.clients[..clients.min(MOST)].iter().zip(&waiting) {
        let (s, v, r) = (client.submitted, client.served, client.dropped);
        wrong |= (s | v | r) & !MOST_COUNTED;
        wrong |= s ^ v.wrapping_add(r).wrapping_add(waiting as u32);
    }
    wrong == 0
}
