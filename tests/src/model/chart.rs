//! "Chart and victim".
use super::hours::Week;
use super::sound::open_up_to;
use super::tables::{Counts, Queue, Request};
use super::Fault;

// "From the last record to the first, a request ends at the smaller of its deadline and the start of the record behind it, and
// starts one slot earlier." Document 02: "the chart uses the latest open slots, each interval ending one after its own slot".
pub fn starts(week: Week, waiting: &[Request]) -> Vec<u64> {
    let mut starts = vec![];
    for request in waiting.iter().rev() {
        let end = match starts.last() {
            Some(&behind) => request.deadline.min(behind),
            None => request.deadline,
        };
        let latest = (0..end).rev().find(|&slot| week.is_open(slot));
        starts.push(latest.expect("in sound tables there is room for each"));
    }
    starts.reverse();
    starts
}

// "Segments are the longest runs of touching intervals, given as [left, right]." Document 02: "two of them touch if no open slot
// lies between". The chart is drawn: slot by slot from the first start to the last, a segment begins at a slot in use and goes on
// until an open one is free. It ends one after the last of its slots.
pub fn segments(week: Week, starts: &[u64]) -> Vec<(u64, u64)> {
    let (Some(&first), Some(&last)) = (starts.iter().min(), starts.iter().max()) else {
        return vec![];
    };
    let mut in_use = vec![false; (last - first) as usize + 1];
    for start in starts {
        in_use[(start - first) as usize] = true;
    }
    let mut segments: Vec<(u64, u64)> = vec![];
    let mut is_going_on = false;
    for (slot, is_in_use) in (first..).zip(in_use) {
        match segments.last_mut() {
            Some((_, right)) if is_in_use && is_going_on => *right = slot + 1,
            _ if is_in_use => segments.push((slot, slot + 1)),
            _ => {}
        }
        is_going_on = is_in_use || (is_going_on && !parts(week, slot));
    }
    segments.into_iter().map(|(left, right)| (left, end(week, right))).collect()
}

// Whether a slot that is not in use parts what is on its sides.
fn parts(week: Week, slot: u64) -> bool {
    week.fault == Fault::CutAtClosed || week.is_open(slot)
}

// A segment's right end, which a fault puts off to where the next open slot begins.
fn end(week: Week, right: u64) -> u64 {
    match week.fault {
        Fault::RightAtNextOpen => (right..).find(|&slot| week.is_open(slot)).unwrap_or(right),
        _ => right,
    }
}

// Whether all can finish: they are placed in the open slots from the clock on, one by one, the earliest deadline first, and each
// has to end by its deadline. They come in chart order.
pub fn can_all_finish<'a>(slots: &[u64], mut requests: impl Iterator<Item = &'a Request>) -> bool {
    let mut slots = slots.iter();
    requests.all(|request| slots.next().is_some_and(|&slot| slot < request.deadline))
}

// "A deadline D is overfull if more than D minus the clock requests have deadlines at most D." The smallest such, with the open
// slots for slots.
fn smallest_overfull(slots: &[u64], requests: &[Request]) -> Option<u64> {
    let up_to = |d: u64| requests.iter().filter(|request| request.deadline <= d).count();
    let deadlines = requests.iter().map(|request| request.deadline);
    deadlines.filter(|&d| up_to(d) > open_up_to(slots, d)).min()
}

// "Candidates are the requests, the new one included, whose removal leaves no overfull deadline." Each removal is tried. What
// is given are the candidates' places, in chart order.
pub fn candidates(slots: &[u64], requests: &[Request]) -> Vec<usize> {
    let others = |place: usize| requests[..place].iter().chain(&requests[place + 1..]);
    let places = 0..requests.len();
    let found: Vec<usize> = places.filter(|&place| can_all_finish(slots, others(place))).collect();
    // "These are exactly those with deadlines up to the smallest overfull one": they come first in chart order
    let smallest = smallest_overfull(slots, requests);
    let up_to_it = requests
        .iter()
        .take_while(|request| Some(request.deadline) <= smallest)
        .count();
    assert!(
        found.iter().copied().eq(0..up_to_it),
        "document 01 says candidates twice, and not the same"
    );
    found
}

// "The miss ratio is dropped divided by submitted, ... compared as fractions without rounding."
fn is_ratio_less(one: &Counts, other: &Counts) -> bool {
    u128::from(one.dropped) * u128::from(other.submitted) < u128::from(other.dropped) * u128::from(one.submitted)
}

// "The smallest wins; among equals, the last in chart order." The place of the victim; the new request already counts in
// submitted.
pub fn victim(queue: &Queue, requests: &[Request]) -> usize {
    let counts = |place: usize| &queue.clients[requests[place].client as usize];
    let mut candidates = candidates(&queue.slots_for(requests), requests);
    if queue.fault == Fault::WrongTie {
        candidates.reverse();
    }
    let later_wins = |chosen: usize, place: usize| {
        if is_ratio_less(counts(chosen), counts(place)) {
            chosen
        } else {
            place
        }
    };
    candidates
        .into_iter()
        .reduce(later_wins)
        .expect("sound tables become feasible without the new request")
}
