//! All hours are open: the room is a difference, as in document 01.
use super::{Rooms, Slots};
use tests::tables::{Head, Hours, Request};

pub struct AllOpen {
    clock: u64,
}

// The slot that is left for the next record.
struct Next(u64);

impl Rooms for Next {
    #[inline(always)]
    fn for_one(&mut self, w: &Request) -> bool {
        self.0 += 1;
        self.0 <= w.deadline
    }

    #[inline(always)]
    fn for_eight(&mut self, eight: &[Request; 8]) -> bool {
        if eight[0].deadline < self.0 + 8 {
            return eight.iter().all(|w| self.for_one(w));
        }
        self.0 += 8;
        true
    }
}

impl Slots for AllOpen {
    #[inline(always)]
    fn new(head: &Head, _: &Hours) -> AllOpen {
        AllOpen { clock: head.clock }
    }

    #[inline(always)]
    fn is_open_now(&self) -> bool {
        true
    }

    #[inline(always)]
    fn room(&self, deadline: u64) -> u64 {
        deadline - self.clock
    }

    #[inline(always)]
    fn rooms(&self, taken: usize) -> impl Rooms {
        Next(self.clock + taken as u64)
    }

    // From the back by fours: where the four end by their own deadlines does not wait for the start behind them, so that only one
    // step in four does.
    #[inline(always)]
    fn write_starts(&self, output: &mut [u64], waiting: &[Request]) {
        let (odd_starts, fours_starts) = output.as_rchunks_mut::<4>();
        let (odd, fours) = waiting.as_rchunks::<4>();
        let mut behind = u64::MAX;
        for (starts, four) in fours_starts.iter_mut().zip(fours).rev() {
            let [a, b, c, d] = ends(four);
            *starts = [
                a.min(behind - 3) - 1,
                b.min(behind - 2) - 1,
                c.min(behind - 1) - 1,
                d.min(behind) - 1,
            ];
            behind = starts[0];
        }
        for (start, w) in odd_starts.iter_mut().zip(odd).rev() {
            behind = w.deadline.min(behind) - 1;
            *start = behind;
        }
    }
}

// Where four records in slots one behind the other end, by their own deadlines.
#[inline(always)]
pub fn ends([a, b, c, d]: &[Request; 4]) -> [u64; 4] {
    let d = d.deadline;
    let c = c.deadline.min(d - 1);
    let b = b.deadline.min(c - 1);
    let a = a.deadline.min(b - 1);
    [a, b, c, d]
}
