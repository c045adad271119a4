//! The five calls by hand, written for speed. All but open stand behind a check of what is lent, which may be left out.
use super::lent::{give, refuse, refused_if, Lent};
use super::slots::all_open::AllOpen;
use super::slots::some_closed::SomeClosed;
use super::slots::{are_all_closed, are_all_open, Slots};
use std::cmp::Ordering::{Equal, Greater, Less};
use tests::tables::*;

// Makes a call in the way that suits the hours.
macro_rules! by_hours {
    ($t:ident, $call:ident($($argument:expr),*)) => {
        if are_all_open($t.hours) {
            $call::<Self, AllOpen>($t $(, $argument)*)
        } else {
            $call::<Self, SomeClosed>($t $(, $argument)*)
        }
    };
}

pub trait Calls: Sized {
    // Refusals 4 and 5. Ok is what the call asks about slots.
    fn check<S: Slots>(t: &Lent) -> Result<S, u64>;

    // No record is read, so that only arguments and lengths are checked. The records are filled as bytes, since the compiler
    // does not always find out that they are.
    #[inline(never)]
    fn open(t: &mut Lent, setup: &Setup, marks: &Hours, values: &mut Values) -> u64 {
        if let Err(refusal) = open_refusal(t, setup, marks) {
            return refuse(values, refusal);
        }
        *t.head = Head {
            setup: *setup,
            clock: 0,
            last: 0,
            waiting: 0,
        };
        *t.hours = *marks;
        // SAFETY: each pointer is to so many records, and zero bytes are a record.
        unsafe {
            t.waiting.as_mut_ptr().write_bytes(0, t.waiting.len());
            t.clients.as_mut_ptr().write_bytes(0, t.clients.len());
        }
        OPENED
    }

    #[inline(always)]
    fn submit(t: &mut Lent, client: u64, deadline: u64, values: &mut Values) -> u64 {
        by_hours!(t, submit(client, deadline, values))
    }

    #[inline(always)]
    fn tick(t: &mut Lent, values: &mut Values) -> u64 {
        by_hours!(t, tick(values))
    }

    #[inline(always)]
    fn report(t: &Lent, client: u64, values: &mut Values) -> u64 {
        by_hours!(t, report(client, values))
    }

    #[inline(always)]
    fn chart(t: &Lent, output: &mut [u64], values: &mut Values) -> u64 {
        by_hours!(t, chart(output, values))
    }
}

#[inline(never)]
fn submit<Q: Calls, S: Slots>(t: &mut Lent, client: u64, deadline: u64, values: &mut Values) -> u64 {
    let checked = Q::check::<S>(t).and_then(|slots| Ok((submit_refusal(t, &slots, client, deadline)?, slots)));
    let (room, slots) = match checked {
        Ok(found) => found,
        Err(refusal) => return refuse(values, refusal),
    };
    let (n, number) = (t.head.waiting as usize, t.head.last + 1);
    let new = request(deadline, number, client);
    t.head.last = number;
    t.clients[client as usize].submitted += 1;
    let waiting = &t.waiting[..n];
    let place = waiting.partition_point(|w| w.deadline <= deadline);
    let shift = (n - place) as u64;
    let Some(last) = last_candidate(&slots, waiting, place, room) else {
        t.waiting.copy_within(place..n, place + 1);
        t.waiting[place] = new;
        t.head.waiting += 1;
        return give(values, KEPT, [number, place as u64, shift]);
    };
    let at = victim(t, client, place, last);
    let lost = put_for(t.waiting, place, new, at);
    t.clients[lost.client as usize].dropped += 1;
    give(values, DROPPED, [number, lost.number, lost.client, shift])
}

#[inline(never)]
fn tick<Q: Calls, S: Slots>(t: &mut Lent, values: &mut Values) -> u64 {
    let (period, slot, n) = (t.head.setup.period, t.head.clock, t.head.waiting);
    let slots = match Q::check::<S>(t).and_then(|slots| refused_if(slot == END, 11).map(|()| slots)) {
        Ok(slots) => slots,
        Err(refusal) => return refuse(values, refusal),
    };
    let (n, is_open) = (n as usize, slots.is_open_now());
    let first = t.waiting[0];
    t.head.clock += 1;
    if is_open && n > 0 {
        t.waiting.copy_within(1..n, 0);
        t.waiting[n - 1] = Request::default();
        t.head.waiting -= 1;
        t.clients[first.client as usize].served += 1;
    }
    if (slot + 1).is_multiple_of(period) {
        start_period(t);
    }
    if !is_open {
        give(values, CLOSED, [slot])
    } else if n > 0 {
        give(values, SERVED, [slot, first.number, first.client])
    } else {
        give(values, IDLE, [slot])
    }
}

// What a client submitted and is neither served nor dropped waits, so that no record has to be counted.
#[inline(never)]
fn report<Q: Calls, S: Slots>(t: &Lent, client: u64, values: &mut Values) -> u64 {
    if let Err(refusal) = Q::check::<S>(t).and(refused_if(t.head.setup.clients <= client, 6)) {
        return refuse(values, refusal);
    }
    let c = &t.clients[client as usize];
    let [submitted, served, dropped] = [c.submitted, c.served, c.dropped].map(u64::from);
    give(
        values,
        REPORT,
        [client, submitted, served, dropped, submitted - served - dropped],
    )
}

#[inline(never)]
fn chart<Q: Calls, S: Slots>(t: &Lent, output: &mut [u64], values: &mut Values) -> u64 {
    let n = t.head.waiting;
    let slots = match Q::check::<S>(t).and_then(|slots| refused_if((output.len() as u64) < n, 12).map(|()| slots)) {
        Ok(slots) => slots,
        Err(refusal) => return refuse(values, refusal),
    };
    slots.write_starts(&mut output[..n as usize], &t.waiting[..n as usize]);
    give(values, CHART, [n])
}

// Refusals 2, 3, 13, 14 and 4.
#[inline(always)]
fn open_refusal(t: &Lent, setup: &Setup, marks: &Hours) -> Result<(), u64> {
    if !(1..=MOST_CLIENTS as u64).contains(&setup.clients) {
        Err(2)
    } else if !(1..=MOST_PERIOD).contains(&setup.period) {
        Err(3)
    } else if !(1..=MOST_PER_HOUR).contains(&setup.slots_per_hour) {
        Err(13)
    } else if are_all_closed(marks) {
        Err(14)
    } else if !t.has_lengths_for(setup.clients) {
        Err(4)
    } else {
        Ok(())
    }
}

// Refusals 6, 7, 15 and 8 to 10, of sound tables. Ok is the room up to the deadline.
#[inline(always)]
fn submit_refusal<S: Slots>(t: &Lent, slots: &S, client: u64, deadline: u64) -> Result<u64, u64> {
    let clock = t.head.clock;
    if t.head.setup.clients <= client {
        return Err(6);
    }
    if deadline <= clock || clock + MOST_AHEAD < deadline {
        return Err(7);
    }
    let room = slots.room(deadline);
    if room == 0 {
        Err(15)
    } else if t.clients[client as usize].submitted == MOST_COUNTED {
        Err(8)
    } else if t.head.last == END {
        Err(9)
    } else if t.head.waiting == t.waiting.len() as u64 {
        Err(10)
    } else {
        Ok(room)
    }
}

// The place of the last candidate, the new request in its own, if a deadline becomes overfull. Behind the new one that is the
// first that had no slot to spare.
#[inline(always)]
fn last_candidate<S: Slots>(slots: &S, waiting: &[Request], place: usize, room: u64) -> Option<usize> {
    if room <= place as u64 {
        return Some(place);
    }
    slots.first_full(waiting, place).map(|i| i + 1)
}

// The place of the candidate that is lost. Each client's last candidate stands for all of its own: they are found without a
// branch that could be guessed wrong, and then there are at most 256 ratios to compare.
fn victim(t: &Lent, client: u64, place: usize, last: usize) -> usize {
    let (before, behind) = t.waiting[..last].split_at(place);
    // a place and 1, or 0
    let mut last_of = [0; MOST_CLIENTS];
    for (i, w) in (1..).zip(before) {
        last_of[w.client as u8 as usize] = i;
    }
    last_of[client as usize] = place + 1;
    for (i, w) in (place + 2..).zip(behind) {
        last_of[w.client as u8 as usize] = i;
    }
    let (mut found, mut least) = (0, (1, 0));
    for (c, &at) in t.clients.iter().zip(&last_of) {
        let (dropped, submitted) = (c.dropped as u64, c.submitted as u64);
        let (this, other) = (dropped * least.1, least.0 * submitted);
        if at > 0 && (this < other || (this == other && found < at)) {
            (found, least) = (at, (dropped, submitted));
        }
    }
    found - 1
}

// The new request comes to its place and the victim goes from its own: only the records between them move.
fn put_for(waiting: &mut [Request], place: usize, new: Request, victim: usize) -> Request {
    match victim.cmp(&place) {
        Less => {
            let lost = waiting[victim];
            waiting.copy_within(victim + 1..place, victim);
            waiting[place - 1] = new;
            lost
        }
        Equal => new,
        Greater => {
            let lost = waiting[victim - 1];
            waiting.copy_within(place..victim - 1, place + 1);
            waiting[place] = new;
            lost
        }
    }
}

// Submitted becomes what waits.
fn start_period(t: &mut Lent) {
    for client in &mut *t.clients {
        *client = Client {
            submitted: client.submitted - client.served - client.dropped,
            served: 0,
            dropped: 0,
        };
    }
}
