//! A chart whose reads are drawn one by one.
use super::super::super::collect::chart::{Chart, Stretch};
use super::super::super::collect::Ended;
use super::super::super::said;
use super::super::colours::{ink, of_row};
use super::super::scale::{AXIS, CLOSED, DARK, FAINT, GREY, LEFT, RIGHT, UNIT, WIDTH};
use super::{length, TOP};
use crate::session::follow::Read;
use crate::drawing::svg::Svg;

/// More free or closed slots than these behind each other are drawn as one gap, and more than one where a band has no room for them.
const MOST_FREE: u64 = 3;
/// Reads are drawn one by one where they fit below each other in so many bands.
const MOST_BANDS: usize = 3;
const BOX: f64 = 36.0;
const BOTTOM: f64 = TOP + BOX + 4.0;

/// Some stretches of a chart beside each other.
struct Band<'a> {
    chart: &'a Chart,
    stretches: &'a [Stretch],
    slot: f64,
}

impl Band<'_> {
    fn x(&self, place: usize) -> f64 {
        LEFT + self.slot * place as f64
    }

    fn draw_read(&self, svg: &mut Svg, session: &Ended, (place, slot, read): (usize, u64, &Read)) {
        let fill = of_row(&session.clients, session.clients.place(read.client));
        let middle = self.x(place) + self.slot / 2.0;
        svg.titled(&said::read(slot, read), |svg| {
            svg.rect((self.x(place) + 0.5, TOP), (self.slot - 1.0, BOX), fill);
            svg.label((middle, TOP + 16.0), "middle", (13.0, ink(fill)), &read.number.to_string());
            svg.label((middle, TOP + 30.0), "middle", (10.5, ink(fill)), &format!("by {}", read.deadline));
        });
    }

    /// Slots that no read has, free or closed.
    fn draw_empty(&self, svg: &mut Svg, place: usize, stretch: &Stretch) {
        svg.rect((self.x(place), TOP), (self.slot, BOX), FAINT);
        if stretch.is_closed() {
            svg.hatch((self.x(place), TOP), (self.slot, BOX), CLOSED);
        }
        if stretch.is_cut() {
            svg.label((self.x(place) + self.slot / 2.0, TOP + BOX / 2.0 + 4.0), "middle", (14.0, GREY), "…");
        }
    }

    fn draw_stretches(&self, svg: &mut Svg, session: &Ended) {
        for (place, stretch) in self.stretches.iter().enumerate() {
            match &stretch.read {
                Some(read) => self.draw_read(svg, session, (place, stretch.left, read)),
                None => self.draw_empty(svg, place, stretch),
            }
        }
    }

    /// The numbers of the slots at their left edges, and marks where reads have to end.
    fn draw_axis(&self, svg: &mut Svg) {
        let lefts = self.stretches.iter().map(|stretch| stretch.left);
        let right = self.stretches.last().map(|stretch| stretch.right);
        svg.line((LEFT, BOTTOM), (self.x(self.stretches.len()), BOTTOM), GREY);
        svg.label((LEFT - UNIT, BOTTOM + 18.0), "end", (12.0, GREY), "slot");
        for (place, slot) in lefts.chain(right).enumerate() {
            let x = self.x(place);
            svg.line((x, BOTTOM), (x, BOTTOM + 4.0), GREY);
            svg.label((x, BOTTOM + 18.0), "middle", (11.0, DARK), &slot.to_string());
            if self.chart.is_deadline(slot) {
                let mark = format!("M{x} {BOTTOM}l-4 6h8z");
                svg.add("path", &[("d", &mark), ("fill", &DARK)], "");
            }
        }
    }

    /// The part of a segment that lies in the band, with its name where that has room.
    fn draw_segment(&self, svg: &mut Svg, segment: &(u64, u64)) {
        let is_in = |stretch: &Stretch| (segment.0..segment.1).contains(&stretch.left);
        let Some(first) = self.stretches.iter().position(is_in) else { return };
        // It has reads in it and, between them, closed slots.
        let count = self.stretches.iter().filter(|stretch| is_in(stretch)).count();
        let (left, right, y) = (self.x(first) + 1.0, self.x(first + count) - 1.0, TOP - 7.0);
        let line = format!("M{left} {}v-4H{right}v4", y + 4.0);
        svg.add("path", &[("d", &line), ("stroke", &DARK), ("fill", &"none")], "");
        let name = said::segment(segment);
        // Beside a segment is a free slot, half of which its name may take.
        if length(&name) <= right - left + self.slot {
            svg.label(((left + right) / 2.0, y - 6.0), "middle", (11.0, DARK), &name);
        }
    }

    fn draw_clock(&self, svg: &mut Svg) {
        let is_first = self.stretches.first().is_some_and(|stretch| stretch.left == self.chart.clock);
        if is_first {
            svg.rect((LEFT - 1.5, TOP - 4.0), (3.0, BOTTOM - TOP + 4.0), DARK);
            svg.label((LEFT - 8.0, TOP + BOX / 2.0 + 4.0), "end", (12.0, DARK), &format!("clock {}", self.chart.clock));
        }
    }

    fn drawing(&self, session: &Ended, width: f64) -> String {
        let mut svg = Svg::new(width, BOTTOM + AXIS, &said::heading(self.chart));
        self.draw_stretches(&mut svg, session);
        self.chart.segments.iter().for_each(|segment| self.draw_segment(&mut svg, segment));
        self.draw_axis(&mut svg);
        self.draw_clock(&mut svg);
        svg.drawing()
    }
}

/// How wide a slot is in which the longest number and the longest deadline have room.
fn width_of_slot(chart: &Chart) -> f64 {
    let texts = chart.reads.iter().flat_map(|read| [read.number.to_string(), format!("by {}", read.deadline)]);
    texts.map(|text| length(&text) + 8.0).fold(36.0, f64::max)
}

/// The chart in bands below each other; nothing where they are too many.
pub fn boxes(session: &Ended, chart: &Chart) -> Option<String> {
    let slot = width_of_slot(chart);
    let in_band = (WIDTH / slot) as usize;
    let stretches = chart.stretches(MOST_FREE);
    let stretches = if stretches.len() > in_band { chart.stretches(1) } else { stretches };
    // All bands have one width, so that they shrink alike.
    let width = LEFT + slot * stretches.len().min(in_band) as f64 + RIGHT;
    let band = |stretches| Band { chart, stretches, slot }.drawing(session, width);
    let bands = || stretches.chunks(in_band.max(1)).map(band).collect();
    (stretches.len() <= MOST_BANDS * in_band).then(bands)
}

#[cfg(test)]
mod tests {
    use super::super::super::super::collect::chart::tests::chart_of;
    use super::super::super::super::collect::tests::{collected, DOCUMENT_01};
    use super::*;

    #[test]
    fn a_mark_is_where_a_read_has_to_end() {
        let drawn = boxes(&collected(&DOCUMENT_01).ended[0], &chart_of(&[1, 3], &[(0, 1), (2, 3)])).unwrap();
        // Slots are 36 wide: 1 is at 126, and 3 at 198.
        let marks: Vec<&str> = drawn.split("d=\"M").skip(1).filter_map(|part| part.split_once("l-4 6h8z")).map(|(at, _)| at).collect();
        assert_eq!(marks, ["126 68", "198 68"]);
    }
}
