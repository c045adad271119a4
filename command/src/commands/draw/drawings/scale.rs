//! Where slots lie in a drawing from left to right, and the axis below them.
use crate::numbers::grouped;
use crate::drawing::svg::Svg;

/// So much stands at the left of the first slot, for the names of rows, and at the right of the last.
pub const LEFT: f64 = 90.0;
pub const RIGHT: f64 = 30.0;
/// So wide are the slots of a drawing together, at most.
pub const WIDTH: f64 = 1_000.0;
/// So high is an axis with its numbers.
pub const AXIS: f64 = 26.0;
/// So far before the first slot stands what an axis counts, since the first number takes some of it.
pub const UNIT: f64 = 38.0;

pub const GREY: &str = "#767676";
pub const FAINT: &str = "#f1f1f1";
pub const DARK: &str = "#222222";
pub const DROP: &str = "#c00000";
/// Closed slots.
pub const CLOSED: &str = "#a9a9a9";

/// A number on an axis takes so much.
const NUMBER: f64 = 60.0;
/// More period starts than these would hide what they stand behind.
const MOST_STARTS: u64 = 60;

pub struct Scale {
    pub first: u64,
    /// The slot behind the last.
    pub end: u64,
    /// How wide a slot is.
    pub slot: f64,
}

impl Scale {
    pub fn x(&self, slot: u64) -> f64 {
        LEFT + (slot as f64 - self.first as f64) * self.slot
    }

    pub fn right(&self) -> f64 {
        self.x(self.end)
    }

    /// The drawing's width.
    pub fn width(&self) -> f64 {
        self.right() + RIGHT
    }

    /// A line with the numbers of slots, each below the slot's left edge.
    pub fn axis(&self, svg: &mut Svg, y: f64) {
        svg.line((LEFT, y), (self.right(), y), GREY);
        svg.label((LEFT - UNIT, y + 18.0), "end", (12.0, GREY), "slot");
        for slot in ticks(self.first, self.end, self.slot) {
            svg.line((self.x(slot), y), (self.x(slot), y + 4.0), GREY);
            svg.label((self.x(slot), y + 18.0), "middle", (11.0, DARK), &grouped(slot));
        }
    }

    /// A thin line at each slot with which a period starts, where they are not too many.
    pub fn periods(&self, svg: &mut Svg, period: u64, (top, bottom): (f64, f64)) {
        for start in starts(self.first, self.end, period) {
            svg.line((self.x(start), top), (self.x(start), bottom), GREY);
        }
    }
}

/// The slots whose numbers have room on an axis.
fn ticks(first: u64, end: u64, slot: f64) -> Vec<u64> {
    let digits = grouped(end).len() as f64;
    let room = if digits > 3.0 { NUMBER } else { 8.0 * digits + 8.0 };
    let step = round(room / slot);
    (first.next_multiple_of(step)..=end).step_by(step as usize).collect()
}

/// The least of 1, 2, 5, 10, 20 and so on that is not less.
fn round(least: f64) -> u64 {
    let tens = (0..19).map(|power| 10_u64.pow(power));
    let steps = tens.flat_map(|ten| [1, 2, 5].map(|digit| u64::saturating_mul(digit, ten)));
    steps.into_iter().find(|&step| step as f64 >= least).unwrap_or(u64::MAX)
}

/// The slots behind the first with which a period starts; none where they are too many.
fn starts(first: u64, end: u64, period: u64) -> Vec<u64> {
    if are_starts_many(end, period) {
        return vec![];
    }
    let from = first.max(1).next_multiple_of(period);
    (from..=end).step_by(period as usize).collect()
}

/// Whether the period starts up to a slot are too many to be drawn.
pub fn are_starts_many(end: u64, period: u64) -> bool {
    end / period > MOST_STARTS
}

#[cfg(test)]
mod tests {
    use super::*;

    #[test]
    fn the_first_slot_stands_at_the_left() {
        let scale = Scale { first: 40, end: 80, slot: 10.0 };
        assert_eq!((scale.x(40), scale.x(42), scale.right()), (LEFT, LEFT + 20.0, LEFT + 400.0));
    }

    #[test]
    fn numbers_on_an_axis_are_round_and_have_room() {
        assert_eq!(ticks(0, 5, 30.0), [0, 1, 2, 3, 4, 5]);
        assert_eq!(ticks(40, 80, 22.0), [40, 42, 44, 46, 48, 50, 52, 54, 56, 58, 60, 62, 64, 66, 68, 70, 72, 74, 76, 78, 80]);
        assert_eq!(ticks(0, 480_451, 0.002), [0, 50_000, 100_000, 150_000, 200_000, 250_000, 300_000, 350_000, 400_000, 450_000]);
    }

    #[test]
    fn period_starts_are_drawn_where_they_are_few() {
        assert_eq!(starts(0, 10, 5), [5, 10]);
        assert_eq!(starts(6, 12, 5), [10]);
        assert!(starts(0, 1_000, 5).is_empty());
    }
}
