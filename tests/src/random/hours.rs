//! Random hours, from one open one to all, and slots and clocks at their edges.
use crate::random::Random;
use crate::tables::{Hours, ALL_OPEN, END};

// "1 to 360,000": the bounds, and between them such as make weeks shorter and longer than deadlines reach.
pub const PER_HOUR: [u64; 9] = [1, 2, 3, 7, 8, 16, 360, 3_600, 360_000];

const HOURS: u64 = 168;

// Marks with which an hour is open for which this holds, and one hour besides, so that not all are closed.
fn open_where(random: &mut Random, mut is_open: impl FnMut(&mut Random, u64) -> bool, besides: u64) -> Hours {
    let mut hours = Hours::default();
    for hour in 0..HOURS {
        if hour == besides || is_open(random, hour) {
            open(&mut hours, hour);
        }
    }
    hours
}

// "first hour in the highest bit, 1 meaning open"
pub fn open(hours: &mut Hours, hour: u64) {
    hours.marks[hour as usize / 8] |= 0x80 >> (hour % 8);
}

pub fn close(hours: &mut Hours, hour: u64) {
    hours.marks[hour as usize / 8] &= !(0x80 >> (hour % 8));
}

// Few and many open hours: often the first is, since there a session begins.
pub fn hours(random: &mut Random) -> Hours {
    let any = random.between(0, HOURS - 1);
    let first = random.one_of(&[0, 0, 1, HOURS - 1, any]);
    match random.below(9) {
        0 | 1 => ALL_OPEN,
        2 => open_where(random, |_, _| false, first),
        3 => open_where(random, |_, hour| hour != any, (any + 1) % HOURS),
        4 => open_where(random, |random, _| random.below(12) == 0, first),
        5 => open_where(random, |random, _| random.below(12) > 0, first),
        6 => open_where(random, |_, hour| hour % 2 == 0, first),
        7 => open_where(random, |_, hour| hour % 2 == 1, first),
        _ => open_where(random, |random, _| random.below(2) == 0, first),
    }
}

// A slot at an edge of some hour in the first week, the second, or any.
pub fn edge(random: &mut Random, slots_per_hour: u64) -> u64 {
    let any = random.between(0, END / (HOURS * slots_per_hour));
    let week = random.one_of(&[0, 1, any]);
    let hour = week * HOURS + random.between(0, HOURS - 1);
    (hour * slots_per_hour + random.between(0, 4)).saturating_sub(2).min(END)
}

// The end of this slot's hour or of one soon after it, or a slot later.
pub fn end_of_hour(random: &mut Random, slots_per_hour: u64, slot: u64) -> u64 {
    let hour = slot.checked_div(slots_per_hour).unwrap_or_default();
    let later = hour.saturating_add(random.between(1, 3));
    later.saturating_mul(slots_per_hour).saturating_add(random.between(0, 1))
}
