//! A damage that the ways by hand might overlook, besides those of the tests.
use tests::model::{Fault, Week};
use tests::random::Random;
use tests::tables::{Tables, MOST_AHEAD};

// So many records before the one that has no room are due with it.
const DUE_TOGETHER: usize = 6;

// One record has no room, and it is due in a closed hour with some before it; all others have room. Where no closed slot lies
// between the first open ones, one for each record, the tables stay as they are.
pub fn overfill_closed_hour(t: &mut Tables, random: &mut Random) {
    let (clock, waiting) = (t.head.clock, t.head.waiting as usize);
    let week = Week::new(t.head.setup.slots_per_hour, t.hours, Fault::None);
    let open: Vec<u64> = week.open_slots(clock, clock + MOST_AHEAD).take(waiting).collect();
    let gaps: Vec<usize> = (1..open.len()).filter(|&room| open[room - 1] + 1 < open[room]).collect();
    if gaps.is_empty() {
        return;
    }
    let room = random.one_of(&gaps);
    let (first, last) = (open[room - 1] + 1, open[room]);
    let deadline = random.between(first + 1, last);
    for (place, record) in t.waiting[..=room].iter_mut().enumerate() {
        record.deadline = if place + DUE_TOGETHER > room {
            deadline
        } else {
            record.deadline.min(first)
        };
    }
    t.waiting[..=room].sort_by_key(|record| (record.deadline, record.number));
}
