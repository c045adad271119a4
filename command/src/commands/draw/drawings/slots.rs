//! Who was served when: slots from left to right, a row a client.
mod bands;
mod shares;

use super::super::collect::Ended;
use super::scale::{are_starts_many, Scale, AXIS, DARK, FAINT, LEFT};
use crate::numbers::counted;
use crate::drawing::page::paragraph;
use crate::drawing::svg::Svg;

const TOP: f64 = 6.0;
const GAP: f64 = 5.0;

/// The rows of a drawing: so high are drops, and the boxes or bars below them.
struct Rows {
    count: usize,
    drops: f64,
    boxes: f64,
    /// Whether hours are closed, so that closed slots have a row.
    has_closed: bool,
}

impl Rows {
    fn new(session: &Ended, drops: f64, boxes: f64) -> Rows {
        let (count, has_closed) = (session.clients.rows(), session.followed.hours.has_closed());
        Rows { count, drops, boxes, has_closed }
    }

    /// Where a row's boxes begin, from above.
    fn top(&self, row: usize) -> f64 {
        TOP + (self.drops + self.boxes + GAP) * row as f64 + self.drops
    }

    /// The idle slots have the row behind the clients, above which nothing is dropped.
    fn idle(&self) -> f64 {
        self.top(self.count) - self.drops
    }

    /// The closed slots have the row behind it, where there are some.
    fn closed(&self) -> f64 {
        self.idle() + self.boxes + GAP
    }

    fn bottom(&self) -> f64 {
        self.closed() + if self.has_closed { self.boxes + GAP } else { 0.0 }
    }

    /// Each row's name, and where its boxes begin.
    fn named(&self, session: &Ended) -> Vec<(String, f64)> {
        let clients = (0..self.count).map(|row| (session.clients.name(row), self.top(row)));
        let closed = self.has_closed.then(|| ("closed".into(), self.closed()));
        clients.chain([("idle".into(), self.idle())]).chain(closed).collect()
    }

    /// A drawing with the rows' names, the axis and the starts of periods.
    fn drawing(&self, session: &Ended, scale: &Scale, width: f64) -> Svg {
        let label = format!("Who was served in the slots from {} to {}", scale.first, scale.end.saturating_sub(1));
        let mut svg = Svg::new(width, self.bottom() + AXIS, &label);
        for (name, top) in self.named(session) {
            svg.rect((LEFT, top), (scale.right() - LEFT, self.boxes), FAINT);
            svg.label((LEFT - 8.0, top + self.boxes / 2.0 + 4.0), "end", (12.0, DARK), &name);
        }
        scale.periods(&mut svg, session.followed.period, (TOP, self.bottom()));
        scale.axis(&mut svg, self.bottom());
        svg
    }
}

/// What is said of the starts of periods.
fn periods(session: &Ended) -> String {
    let (end, period) = (session.followed.clock, session.followed.period);
    let each = counted(period, "slot");
    match end / period {
        0 => format!(" The first period, of {each}, has not ended."),
        _ if are_starts_many(end, period) => format!(" A period starts each {each}, too often to be drawn."),
        _ => format!(" A thin line is where a period starts, each {each}."),
    }
}

pub fn slots(session: &Ended) -> String {
    if session.collected.recent.slots.is_empty() {
        return paragraph("No slot passed.");
    }
    bands::bands(session).unwrap_or_else(|| shares::shares(session))
}

#[cfg(test)]
mod tests {
    use super::super::super::collect::tests::{collected, DOCUMENT_01, SMALL};
    use super::*;
    use crate::lines::frames::{Frame, OPEN};

    #[test]
    fn the_first_period_has_not_ended_before_its_last_slot_has() {
        let session = |period: u64| {
            let open = Frame::call(OPEN, &[2, period, 8]).line();
            collected(&[&[(open.as_str(), &["81"][..])], &DOCUMENT_01[1..]].concat())
        };
        assert_eq!(periods(&session(100).ended[0]), " The first period, of 100 slots, has not ended.");
        assert_eq!(periods(&session(1).ended[0]), " A thin line is where a period starts, each 1 slot.");
    }

    /// The last row, and a box in it, for each slot that was closed.
    #[test]
    fn closed_slots_have_a_row() {
        let session = &collected(&SMALL).ended[0];
        let bands = bands::bands(session).unwrap();
        for drawn in [&bands, &shares::shares(session)] {
            assert!(["client 0", "idle", "closed"].iter().all(|name| drawn.contains(&format!(">{name}</text>"))));
        }
        let closed = bands.split("<title>").filter_map(|part| part.split_once(": closed</title>"));
        assert_eq!(closed.map(|(slot, _)| slot).collect::<Vec<_>>(), ["slot 2", "slot 3", "slot 6"]);
        assert!(!shares::shares(&collected(&DOCUMENT_01).ended[0]).contains("closed"));
    }

    #[test]
    fn a_row_has_its_own_drops_and_the_last_the_idle_slots() {
        let drawn = shares::shares(&collected(&DOCUMENT_01).ended[0]);
        // Whether each path of a colour has bars in it.
        let bars = |fill: &str| -> Vec<bool> {
            let end = format!("\" fill=\"{fill}\"></path>");
            drawn.match_indices(&end).map(|(place, _)| !drawn[..place].ends_with("d=\"")).collect()
        };
        // Client 1's read was dropped, client 0's was served, and no slot was idle.
        assert_eq!((bars("#c00000"), bars("#767676"), bars("#0072b2")), (vec![false, true], vec![false], vec![true]));
    }
}
