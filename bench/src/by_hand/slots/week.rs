//! The week's hours: how many open ones come before each, and with that the open slots before any slot.
use tests::tables::{Head, Hours};

pub const HOURS: usize = 168;

pub struct Week {
    pub slots_per_hour: u64,
    // Of each hour, how many open ones come before it in the week; behind them, how many there are.
    before: [u8; HOURS + 1],
}

// An hour: its number in the week, where it begins, and how many slots are open before it.
pub struct Hour {
    pub number: usize,
    pub start: u64,
    pub opened: u64,
}

// One in each byte of a word.
const EACH: u64 = 0x0101_0101_0101_0101;

impl Week {
    // Eight hours at a time: each bit of a byte comes to a byte of its own, the first hour's to the lowest, and a product adds up
    // those before it.
    #[inline(always)]
    pub fn new(head: &Head, hours: &Hours) -> Week {
        let mut before = [0; HOURS + 1];
        let (eights, last) = before.as_chunks_mut::<8>();
        let mut open = 0;
        for (eight, &marks) in eights.iter_mut().zip(&hours.marks) {
            let bits = (marks as u64).wrapping_mul(0x8040_2010_0804_0201) >> 7 & EACH;
            let sums = bits.wrapping_mul(EACH);
            *eight = (open * EACH + (sums << 8)).to_le_bytes();
            open += sums >> 56;
        }
        last[0] = open as u8;
        Week {
            slots_per_hour: head.setup.slots_per_hour,
            before,
        }
    }

    #[inline(always)]
    pub fn is_open(&self, hour: usize) -> bool {
        self.before[hour] != self.before[hour + 1]
    }

    #[inline(always)]
    pub fn opened(&self, hour: usize) -> u64 {
        self.before[hour].into()
    }

    // How many hours are open.
    #[inline(always)]
    pub fn all(&self) -> u64 {
        self.before[HOURS].into()
    }

    #[inline(always)]
    pub fn hour_of(&self, slot: u64) -> Hour {
        let hours = slot / self.slots_per_hour;
        let (weeks, number) = (hours / HOURS as u64, (hours % HOURS as u64) as usize);
        Hour {
            number,
            start: hours * self.slots_per_hour,
            opened: (weeks * self.all() + self.opened(number)) * self.slots_per_hour,
        }
    }

    // How many slots before this one are open.
    #[inline(always)]
    pub fn open_before(&self, slot: u64) -> u64 {
        let hour = self.hour_of(slot);
        hour.opened + if self.is_open(hour.number) { slot - hour.start } else { 0 }
    }
}
