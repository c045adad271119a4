//! Document 02, "Inspection hours".
use super::Fault;
use std::ops::RangeInclusive;
// Marks as they are lent and as a frame carries them, "21 bytes".
pub use welsbell::Hours;

// "slots per hour outside 1 to 360,000"
pub const PER_HOUR: RangeInclusive<u64> = 1..=360_000;

// "168 open-or-closed marks"
const WEEK: u64 = 168;

// Slots are looked at one by one. No deadline of sound tables is so far ahead, and in others what comes later does not matter.
const FAR: u64 = 1 << 17;

// Which slots are open.
#[derive(Clone, Copy, Debug)]
pub struct Week {
    slots_per_hour: u64,
    hours: Hours,
    pub fault: Fault,
}

impl Week {
    pub fn new(slots_per_hour: u64, hours: Hours, fault: Fault) -> Week {
        Week {
            slots_per_hour,
            hours,
            fault,
        }
    }

    // "first hour in the highest bit, 1 meaning open"
    fn is_marked(&self, hour: u64) -> bool {
        let from_the_highest = hour % 8;
        let bit = if self.fault == Fault::FirstHourLowest {
            from_the_highest
        } else {
            7 - from_the_highest
        };
        let byte = self.hours.marks[hour as usize / 8];
        byte >> bit & 1 == 1
    }

    // "all hours closed"
    pub fn is_all_closed(&self) -> bool {
        !(0..WEEK).any(|hour| self.is_marked(hour))
    }

    // "hour 0 beginning at clock 0 and the marks repeating after hour 167". In hours without slots there is none.
    pub fn is_open(&self, slot: u64) -> bool {
        let Some(hour) = slot.checked_div(self.slots_per_hour) else {
            return false;
        };
        if self.fault == Fault::OneWeek && hour >= WEEK {
            return true;
        }
        self.is_marked(hour % WEEK)
    }

    // The open slots from the clock to a deadline, one by one. "Slot s is ended by deadline D if s + 1 is at most D."
    pub fn open_slots(self, clock: u64, deadline: u64) -> impl Iterator<Item = u64> {
        let end = deadline.min(clock.saturating_add(FAR));
        (clock..end).filter(move |&slot| self.is_open(slot))
    }

    // Whether deadlines lie so far ahead as a fault has it: up to so many open slots.
    pub fn is_within_open(self, most: i128, clock: u64, deadline: u64) -> bool {
        let end = clock.saturating_add(FAR);
        clock < deadline && deadline <= end && self.open_slots(clock, deadline).count() as i128 <= most
    }
}
