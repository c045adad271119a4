//! A chart of many reads: how many of its slots are taken, in columns, by client.
use super::super::super::collect::chart::Chart;
use super::super::super::collect::Ended;
use super::super::super::said;
use super::super::colours::of_row;
use super::super::scale::{Scale, AXIS, CLOSED, DARK, FAINT, GREY, LEFT, WIDTH};
use super::{length, TOP};
use crate::numbers::counted;
use crate::drawing::svg::Svg;

const COLUMNS: u64 = 250;
const HEIGHT: f64 = 60.0;
const BASE: f64 = TOP + HEIGHT;
/// Deadlines hang below what is taken.
const DEADLINES: f64 = 20.0;
const BOTTOM: f64 = BASE + DEADLINES + 4.0;

/// A narrower gap is not seen.
const NARROWEST: f64 = 0.5;

struct Profile {
    /// So many slots a column stands for.
    width: u64,
    /// How many are taken, by row of clients and column.
    taken: Vec<Vec<u64>>,
    /// How many are closed, by column.
    closed: Vec<u64>,
    /// How many reads have to end with a slot of the column.
    deadlines: Vec<u64>,
}

impl Profile {
    fn of(session: &Ended, chart: &Chart) -> Profile {
        let slots = chart.end() - chart.clock;
        let width = slots.div_ceil(COLUMNS).max(1);
        let empty = vec![0; slots.div_ceil(width) as usize];
        let last = empty.len().saturating_sub(1);
        let mut taken = vec![empty.clone(); session.clients.rows()];
        let mut deadlines = empty;
        let column = |slot: u64| last.min(((slot - chart.clock) / width) as usize);
        for (slot, read) in chart.placed() {
            taken[session.clients.place(read.client)][column(slot)] += 1;
            deadlines[column(read.deadline - 1)] += 1;
        }
        let closed = closed(chart, width);
        Profile { width, taken, closed, deadlines }
    }

    /// How many slots of each column are taken by the rows up to this.
    fn below(&self, row: usize) -> Vec<u64> {
        let rows = &self.taken[..row];
        (0..self.deadlines.len()).map(|column| rows.iter().map(|row| row[column]).sum()).collect()
    }

    /// The left edge of a column and its width.
    fn place(&self, scale: &Scale, column: usize) -> (f64, f64) {
        let left = scale.first + column as u64 * self.width;
        let right = (left + self.width).min(scale.end);
        (scale.x(left), scale.x(right) - scale.x(left))
    }

    /// What a row of clients takes, on top of the rows before it.
    fn draw_row(&self, svg: &mut Svg, session: &Ended, scale: &Scale, row: usize) {
        let below = self.below(row);
        let high = |slots: u64| HEIGHT * slots as f64 / self.width as f64;
        let bar = |(column, &taken): (usize, &u64)| {
            let (x, width) = self.place(scale, column);
            ((x, BASE - high(below[column] + taken)), (width, high(taken)))
        };
        let bars = self.taken[row].iter().enumerate().filter(|(_, taken)| **taken > 0).map(bar);
        svg.rects(&bars.collect::<Vec<_>>(), of_row(&session.clients, row));
    }

    /// What is closed hangs from above. What is taken does not reach it, since no read has a closed slot.
    fn draw_closed(&self, svg: &mut Svg, scale: &Scale) {
        let bar = |(column, &closed): (usize, &u64)| {
            let (x, width) = self.place(scale, column);
            ((x, TOP), (width, HEIGHT * closed as f64 / self.width as f64))
        };
        let bars = self.closed.iter().enumerate().filter(|(_, closed)| **closed > 0).map(bar);
        svg.rects(&bars.collect::<Vec<_>>(), CLOSED);
    }

    fn draw_deadlines(&self, svg: &mut Svg, scale: &Scale) {
        let most = self.deadlines.iter().copied().max().unwrap_or(1).max(1);
        let bar = |(column, &deadlines): (usize, &u64)| {
            let (x, width) = self.place(scale, column);
            ((x, BASE + 2.0), (width, DEADLINES * deadlines as f64 / most as f64))
        };
        let bars = self.deadlines.iter().enumerate().filter(|(_, deadlines)| **deadlines > 0).map(bar);
        svg.rects(&bars.collect::<Vec<_>>(), GREY);
    }
}

/// How many slots are closed in each column of this width.
fn closed(chart: &Chart, width: u64) -> Vec<u64> {
    let slots: Vec<u64> = (chart.clock..chart.end()).map(|slot| u64::from(!chart.hours.is_open(slot))).collect();
    slots.chunks(width as usize).map(|column| column.iter().sum()).collect()
}

/// The segments as lines above, from end to end. Gaps that are too narrow to be seen are left out, since segments are many.
fn lines(chart: &Chart, scale: &Scale) -> Vec<(f64, f64)> {
    let mut lines: Vec<(f64, f64)> = vec![];
    for segment in &chart.segments {
        let (left, right) = (scale.x(segment.0), scale.x(segment.1));
        match lines.last_mut() {
            Some((_, end)) if left - *end < NARROWEST => *end = right,
            _ => lines.push((left, right)),
        }
    }
    lines
}

/// The names of the segments that have room for them.
fn draw_names(svg: &mut Svg, chart: &Chart, scale: &Scale) {
    for segment in &chart.segments {
        let (left, right, name) = (scale.x(segment.0), scale.x(segment.1), said::segment(segment));
        if length(&name) <= right - left {
            svg.label(((left + right) / 2.0, TOP - 12.0), "middle", (11.0, DARK), &name);
        }
    }
}

/// What is said of it, and its drawing.
pub fn profile(session: &Ended, chart: &Chart) -> (String, String) {
    let scale = Scale {
        first: chart.clock,
        end: chart.end(),
        slot: WIDTH / (chart.end() - chart.clock).max(1) as f64,
    };
    let profile = Profile::of(session, chart);
    let mut svg = Svg::new(scale.width(), BOTTOM + AXIS, &said::heading(chart));
    svg.rect((LEFT, TOP), (WIDTH, HEIGHT), FAINT);
    if chart.has_closed() {
        profile.draw_closed(&mut svg, &scale);
    }
    (0..session.clients.rows()).for_each(|row| profile.draw_row(&mut svg, session, &scale, row));
    profile.draw_deadlines(&mut svg, &scale);
    let lines = lines(chart, &scale);
    let lines = lines.iter().map(|(left, right)| ((*left, TOP - 7.0), (right - left, 3.0)));
    svg.rects(&lines.collect::<Vec<_>>(), DARK);
    draw_names(&mut svg, chart, &scale);
    for (y, name) in [(TOP + 8.0, format!("clock {}", chart.clock)), (BASE - 4.0, "reads".into()), (BASE + 16.0, "deadlines".into())] {
        svg.label((LEFT - 8.0, y), "end", (12.0, DARK), &name);
    }
    svg.rect((LEFT - 1.5, TOP - 4.0), (3.0, BOTTOM - TOP + 4.0), DARK);
    scale.axis(&mut svg, BOTTOM);
    let stands = counted(profile.width, "slot");
    let closed = if chart.has_closed() { "; from above hangs the share that is closed" } else { "" };
    let said = format!(
        " A column stands for {stands} and is as high as the share of them that is taken{closed}; below hang the deadlines in it."
    );
    (said, svg.drawing())
}

#[cfg(test)]
mod tests {
    use super::super::super::super::collect::chart::tests::{chart_in_hours, chart_of};
    use super::super::super::super::collect::tests::{collected, DOCUMENT_01};
    use super::*;

    #[test]
    fn a_deadline_belongs_to_the_slot_that_it_ends() {
        let profile = Profile::of(&collected(&DOCUMENT_01).ended[0], &chart_of(&[1, 3, 3], &[(0, 3)]));
        assert_eq!((profile.width, profile.taken, profile.deadlines), (1, vec![vec![1, 1, 1], vec![0, 0, 0]], vec![1, 0, 2]));
    }

    #[test]
    fn a_closed_slot_is_not_taken_and_a_deadline_may_lie_behind_it() {
        // Slots 0, 1, 4 and 5 are open, and 6 to 335 closed.
        let chart = chart_in_hours(2, "0,2", &[3, 5, 8], &[(1, 6)]);
        let profile = Profile::of(&collected(&DOCUMENT_01).ended[0], &chart);
        assert_eq!(profile.taken[0], [0, 1, 0, 0, 1, 1, 0, 0]);
        assert_eq!((profile.closed, profile.deadlines), (vec![0, 0, 1, 1, 0, 0, 1, 1], vec![0, 0, 1, 0, 1, 0, 0, 1]));
    }

    #[test]
    fn rows_stand_on_each_other() {
        let session = &collected(&DOCUMENT_01).ended[0];
        let profile = Profile { width: 2, taken: vec![vec![1], vec![1]], closed: vec![0], deadlines: vec![2] };
        let mut svg = Svg::new(1.0, 1.0, "");
        let scale = Scale { first: 0, end: 2, slot: 10.0 };
        (0..2).for_each(|row| profile.draw_row(&mut svg, session, &scale, row));
        let drawn = svg.drawing();
        assert!(drawn.contains("M90 58h20v30H90z") && drawn.contains("M90 28h20v30H90z"), "{drawn}");
    }
}
