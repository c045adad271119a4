//! Some hours are closed. A line is kept below the room of all deadlines, which one hour gives: where it shows room for the next
//! eight records, by the first of them, or for four, no hour has to be found, and they are asked as with all hours open.
use super::latest::Latest;
use super::week::Week;
use super::{Rooms, Slots};
use tests::tables::{Head, Hours, Request};

// In hours of fewer slots the start slots of four records are seldom in one.
pub const MANY: u64 = 16;

pub struct SomeClosed {
    week: Week,
    clock: u64,
}

// Before any deadline at least so many slots are open: the reach, or the deadline less the floor, whichever is smaller. An hour
// gives one: the floor is how many slots are closed before it, and the reach how many are open before its end.
#[derive(Clone, Copy)]
struct Line {
    floor: u64,
    reach: u64,
}

impl Line {
    // Of the hour that has the slot. Cold, so that what the fours need stays in registers.
    #[cold]
    #[inline(never)]
    fn new(week: &Week, slot: u64) -> Line {
        let hour = week.hour_of(slot);
        let more = if week.is_open(hour.number) { week.slots_per_hour } else { 0 };
        Line {
            floor: hour.start - hour.opened,
            reach: hour.opened.wrapping_add(more),
        }
    }

    // Whether the first of eight shows room for all, behind so many open slots that are taken.
    #[inline(always)]
    fn has_room_for_eight(&self, taken: u64, first: &Request) -> bool {
        let last = taken + 7;
        (last < self.reach) & (self.floor.wrapping_add(last) < first.deadline)
    }

    // Whether it shows room for each of the four.
    #[inline(always)]
    fn has_room_for_four(&self, taken: u64, [a, b, c, d]: &[Request; 4]) -> bool {
        let slot = self.floor.wrapping_add(taken);
        let [a, b] = [slot < a.deadline, slot + 1 < b.deadline];
        let [c, d] = [slot + 2 < c.deadline, slot + 3 < d.deadline];
        (taken + 3 < self.reach) & a & b & c & d
    }
}

struct Next<'a> {
    week: &'a Week,
    line: Line,
    // the open slots before the clock, and those that the records before the next one take
    taken: u64,
}

impl Next<'_> {
    // Takes the line of the next record's hour, where the one that is held does not reach over so many records. Where it does, a
    // later hour's shows no more, since its floor is not lower.
    #[inline(always)]
    fn reach_over(&mut self, records: u64, next: &Request) {
        if self.line.reach < self.taken + records {
            self.line = Line::new(self.week, next.deadline);
        }
    }

    #[inline(always)]
    fn for_four(&mut self, four: &[Request; 4]) -> bool {
        self.reach_over(4, &four[0]);
        if !self.line.has_room_for_four(self.taken, four) {
            return four.iter().all(|w| self.for_one(w));
        }
        self.taken += 4;
        true
    }
}

impl Rooms for Next<'_> {
    #[inline(always)]
    fn for_one(&mut self, w: &Request) -> bool {
        self.taken += 1;
        self.taken <= self.week.open_before(w.deadline)
    }

    #[inline(always)]
    fn for_eight(&mut self, eight: &[Request; 8]) -> bool {
        self.reach_over(8, &eight[0]);
        if !self.line.has_room_for_eight(self.taken, &eight[0]) {
            let (fours, _) = eight.as_chunks::<4>();
            return fours.iter().all(|four| self.for_four(four));
        }
        self.taken += 8;
        true
    }
}

impl Slots for SomeClosed {
    #[inline(always)]
    fn new(head: &Head, hours: &Hours) -> SomeClosed {
        SomeClosed {
            week: Week::new(head, hours),
            clock: head.clock,
        }
    }

    #[inline(always)]
    fn is_open_now(&self) -> bool {
        self.week.is_open(self.week.hour_of(self.clock).number)
    }

    #[inline(always)]
    fn room(&self, deadline: u64) -> u64 {
        self.week.open_before(deadline) - self.week.open_before(self.clock)
    }

    #[inline(always)]
    fn rooms(&self, taken: usize) -> impl Rooms {
        Next {
            week: &self.week,
            line: Line::new(&self.week, self.clock),
            taken: self.week.open_before(self.clock) + taken as u64,
        }
    }

    // From the back; where hours have many slots by fours.
    #[inline(always)]
    fn write_starts(&self, output: &mut [u64], waiting: &[Request]) {
        let mut latest = Latest::new(&self.week);
        if self.week.slots_per_hour < MANY {
            latest.put(output, waiting);
        } else {
            latest.put_fours(output, waiting);
        }
    }
}
