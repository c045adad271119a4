//! The latest open slots, from the back, for a chart.
use super::all_open::ends;
use super::week::{Week, HOURS};
use tests::tables::Request;

pub struct Latest<'a> {
    week: &'a Week,
    // the slot behind, and its hour: the number in the week, and where it begins
    behind: u64,
    hour: usize,
    start: u64,
}

// An hour that is further back is found by division.
const NEAR: u64 = 4;

impl Latest<'_> {
    // No slot is behind the first.
    #[inline(always)]
    pub fn new(week: &Week) -> Latest<'_> {
        Latest {
            week,
            behind: u64::MAX,
            hour: 0,
            start: u64::MAX,
        }
    }

    // The start slots of these records.
    #[inline(never)]
    pub fn put(&mut self, starts: &mut [u64], waiting: &[Request]) {
        for (start, w) in starts.iter_mut().zip(waiting).rev() {
            *start = self.before(w.deadline);
        }
    }

    #[inline(never)]
    pub fn put_fours(&mut self, starts: &mut [u64], waiting: &[Request]) {
        let (odd_starts, fours_starts) = starts.as_rchunks_mut::<4>();
        let (odd, fours) = waiting.as_rchunks::<4>();
        for (starts, four) in fours_starts.iter_mut().zip(fours).rev() {
            if !self.put_four(starts, four) {
                self.put(starts, four);
            }
        }
        self.put(odd_starts, odd);
    }

    // Four, as with all hours open, if even the first of them starts in the hour of the slot behind.
    #[inline(always)]
    fn put_four(&mut self, starts: &mut [u64; 4], four: &[Request; 4]) -> bool {
        let [a, b, c, d] = ends(four);
        let behind = self.behind;
        let first = a.min(behind - 3);
        if first <= self.start {
            return false;
        }
        *starts = [first - 1, b.min(behind - 2) - 1, c.min(behind - 1) - 1, d.min(behind) - 1];
        self.behind = first - 1;
        true
    }

    // Before the deadline and the slot behind.
    #[inline(always)]
    fn before(&mut self, deadline: u64) -> u64 {
        let mut end = deadline.min(self.behind);
        if end <= self.start {
            self.go_to_hour_of(end - 1);
            if !self.week.is_open(self.hour) {
                self.leave_closed();
                end = self.start + self.week.slots_per_hour;
            }
        }
        self.behind = end - 1;
        self.behind
    }

    #[inline(always)]
    fn go_to_hour_of(&mut self, slot: u64) {
        if slot + NEAR * self.week.slots_per_hour < self.start {
            let hour = self.week.hour_of(slot);
            (self.hour, self.start) = (hour.number, hour.start);
        }
        while slot < self.start {
            self.go_back();
        }
    }

    #[inline(always)]
    fn leave_closed(&mut self) {
        while !self.week.is_open(self.hour) {
            self.go_back();
        }
    }

    // By an hour.
    #[inline(always)]
    fn go_back(&mut self) {
        self.hour = if self.hour == 0 { HOURS - 1 } else { self.hour - 1 };
        self.start -= self.week.slots_per_hour;
    }
}
