//! Which slots are open, by the hours that an open has set.
use crate::lines::marks::{Marks, HOURS};
use crate::numbers::counted;

/// So many ranges of hours are named in a sentence.
const NAMED: usize = 12;

#[derive(Clone, Copy, Debug)]
pub struct Hours {
    /// Slots per hour.
    slots: u64,
    marks: Marks,
}

/// Document 01's setting.
impl Default for Hours {
    fn default() -> Hours {
        Hours::new(1, Marks::ALL_OPEN)
    }
}

impl Hours {
    /// An accepted open has at least one slot an hour.
    pub fn new(slots: u64, marks: Marks) -> Hours {
        Hours { slots: slots.max(1), marks }
    }

    /// "hour 0 beginning at clock 0 and the marks repeating after hour 167"
    pub fn is_open(&self, slot: u64) -> bool {
        self.marks.is_open((slot / self.slots % HOURS as u64) as usize)
    }

    /// The first open slot from this one on.
    pub fn next_open(&self, slot: u64) -> u64 {
        let hour = slot / self.slots;
        let starts = (hour + 1..=hour + HOURS as u64).map(|hour| hour * self.slots);
        [slot].into_iter().chain(starts).find(|&slot| self.is_open(slot)).unwrap_or(slot)
    }

    /// Whether some hours are closed.
    pub fn has_closed(&self) -> bool {
        self.marks != Marks::ALL_OPEN
    }

    /// What is said of them behind another sentence; nothing where they are document 01's.
    pub fn said(&self) -> String {
        let slots = counted(self.slots, "slot");
        if !self.has_closed() {
            return if self.slots == 1 { String::new() } else { format!(" An hour is {slots}; all hours are open.") };
        }
        let (are_open, names) = self.marks.named();
        let count = format!(" An hour is {slots}; {} of {HOURS} hours are open", self.marks.open());
        match (are_open, names.len()) {
            (true, ..=NAMED) => format!("{count}: {}.", names.join(", ")),
            (false, ..=NAMED) => format!("{count}, all but {}.", names.join(", ")),
            _ => format!("{count}."),
        }
    }
}

#[cfg(test)]
mod tests {
    use super::*;

    fn hours(slots: u64, open: &str) -> Hours {
        Hours::new(slots, Marks::read(open, true).unwrap())
    }

    #[test]
    fn a_slot_is_open_by_the_mark_of_its_hour() {
        let hours = hours(2, "0,2");
        let open: Vec<u64> = (0..345).filter(|&slot| hours.is_open(slot)).collect();
        assert_eq!(open, [0, 1, 4, 5, 336, 337, 340, 341]);
    }

    #[test]
    fn the_next_open_slot_is_the_slot_itself_or_begins_an_hour() {
        let hours = hours(2, "0,2");
        assert_eq!([0, 1, 2, 3, 5, 6, 335].map(|slot| hours.next_open(slot)), [0, 1, 4, 4, 5, 336, 336]);
    }

    #[test]
    fn hours_are_named_where_they_are_few() {
        assert_eq!(Hours::default().said(), "");
        assert_eq!(Hours::new(360, Marks::ALL_OPEN).said(), " An hour is 360 slots; all hours are open.");
        assert_eq!(hours(1, "0,2").said(), " An hour is 1 slot; 2 of 168 hours are open: 0, 2.");
        assert_eq!(hours(360, "0-5,8-167").said(), " An hour is 360 slots; 166 of 168 hours are open, all but 6-7.");
        let every_second: Vec<String> = (0..HOURS).step_by(2).map(|hour| hour.to_string()).collect();
        assert_eq!(hours(1, &every_second.join(",")).said(), " An hour is 1 slot; 84 of 168 hours are open.");
    }
}
