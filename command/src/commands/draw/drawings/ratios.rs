//! The miss ratios over time, a line a client.
use super::super::collect::Ended;
use super::colours::{entry, legend, of_row, LEGEND};
use super::scale::{Scale, AXIS, DARK, GREY, LEFT, WIDTH};
use crate::numbers::counted;
use crate::drawing::page::{drawings, paragraph};
use crate::drawing::svg::Svg;
use std::fmt::Display;

const SAID: &str = "\
A client's reads dropped, divided by those submitted, both counted since the period began, as the queue does; the table counts since \
the open. Where lines lie on each other, the wider one is seen below the other.";
const HEIGHT: f64 = 180.0;
const TOP: f64 = LEGEND + 8.0;
/// The largest ratio on an axis is the least of these that is not less than any.
const LARGEST: [f64; 9] = [0.01, 0.02, 0.05, 0.1, 0.2, 0.3, 0.5, 0.75, 1.0];
/// So many steps an axis has.
const STEPS: usize = 5;

/// By so much a line is wider than the next, where they are few, and the widest than the last.
const STEP: f64 = 1.3;
const WIDEST: f64 = 3.5;

struct Axis {
    scale: Scale,
    largest: f64,
}

impl Axis {
    fn y(&self, ratio: f64) -> f64 {
        TOP + HEIGHT * (1.0 - ratio / self.largest)
    }

    fn draw(&self, svg: &mut Svg) {
        for step in 0..=STEPS {
            let ratio = self.largest * step as f64 / STEPS as f64;
            svg.line((LEFT, self.y(ratio)), (self.scale.right(), self.y(ratio)), "#e4e4e4");
            svg.label((LEFT - 8.0, self.y(ratio) + 4.0), "end", (11.0, DARK), &format!("{ratio:.3}"));
        }
        svg.line((LEFT, self.y(0.0)), (LEFT, self.y(self.largest)), GREY);
        self.scale.axis(svg, self.y(0.0));
    }

    /// A client's line, or that of all: level over each column.
    fn points(&self, session: &Ended, place: usize) -> Vec<(f64, f64)> {
        let columns = &session.collected.columns;
        let means = (0..).zip(columns.columns.iter().map(|column| column.mean(place)));
        let level = |(column, mean): (u64, Option<f64>)| {
            let ends = [column * columns.width, ((column + 1) * columns.width).min(self.scale.end)];
            mean.map(|mean| ends.map(|end| (self.scale.x(end), self.y(mean))))
        };
        means.filter_map(level).flatten().collect()
    }
}

/// Without the points in the middle of a level line.
fn corners(points: &[(f64, f64)]) -> Vec<(f64, f64)> {
    let is_corner = |place: &usize| match (place.checked_sub(1).and_then(|before| points.get(before)), points.get(place + 1)) {
        (Some(before), Some(next)) => before.1 != points[*place].1 || points[*place].1 != next.1,
        _ => true,
    };
    (0..points.len()).filter(is_corner).map(|place| points[place]).collect()
}

fn draw_line(svg: &mut Svg, points: &[(f64, f64)], stroke: &str, width: f64, dashes: &str) {
    let points: Vec<String> = corners(points).iter().map(|(x, y)| format!("{x:.1},{y:.1}")).collect();
    let line: [(&str, &dyn Display); 5] = [
        ("points", &points.join(" ")),
        ("fill", &"none"),
        ("stroke", &stroke),
        ("stroke-width", &format!("{width:.1}")),
        ("stroke-dasharray", &dashes),
    ];
    svg.add("polyline", &line, "");
}

/// The lines lie on each other where the queue is fair. So the first is the widest, and each is seen below the next.
fn draw_lines(svg: &mut Svg, session: &Ended, axis: &Axis) {
    let count = session.clients.drawn.len();
    for row in 0..count {
        let width = 1.5 + (count - 1 - row) as f64 * STEP.min(WIDEST / count as f64);
        let draw = |svg: &mut Svg| draw_line(svg, &axis.points(session, row), of_row(&session.clients, row), width, "none");
        svg.titled(&session.clients.name(row), draw);
    }
}

/// The line of all clients, and its entry in the legend.
fn draw_all(svg: &mut Svg, session: &Ended, axis: &Axis) {
    let count = session.clients.drawn.len();
    let x = entry(count);
    draw_line(svg, &axis.points(session, count), DARK, 1.0, "3 2");
    draw_line(svg, &[(x, 11.0), (x + 14.0, 11.0)], DARK, 1.0, "3 2");
    svg.label((x + 19.0, 15.0), "start", (12.0, DARK), "all clients");
}

/// The largest mean of any line.
fn largest(session: &Ended) -> f64 {
    let count = session.clients.drawn.len();
    let columns = &session.collected.columns.columns;
    let means = columns.iter().flat_map(|column| (0..=count).filter_map(|place| column.mean(place)));
    means.fold(0.0, f64::max)
}

fn drawing(session: &Ended, largest: f64) -> String {
    let end = session.end();
    let axis = Axis {
        scale: Scale {
            first: 0,
            end,
            slot: (WIDTH / end as f64).min(60.0),
        },
        largest,
    };
    let count = session.clients.drawn.len();
    let width = axis.scale.width().max(entry(count + 1) + 10.0);
    let mut svg = Svg::new(width, TOP + HEIGHT + AXIS, "The miss ratios over time, a line a client");
    axis.draw(&mut svg);
    axis.scale.periods(&mut svg, session.followed.period, (TOP, TOP + HEIGHT));
    legend(&mut svg, &session.clients, count);
    draw_lines(&mut svg, session, &axis);
    draw_all(&mut svg, session, &axis);
    drawings(&svg.drawing())
}

pub fn ratios(session: &Ended) -> String {
    let largest = largest(session);
    if largest == 0.0 {
        return paragraph("Every miss ratio is 0 all the time: nothing was dropped.");
    }
    let width = session.collected.columns.width;
    let mean = match width {
        1 => String::new(),
        _ => format!(" A column stands for {}, and the line is at the mean over them.", counted(width, "slot")),
    };
    let largest = LARGEST.into_iter().find(|&ratio| ratio >= largest).unwrap_or(1.0);
    format!("{}{}", paragraph(&(SAID.to_string() + &mean)), drawing(session, largest))
}

#[cfg(test)]
mod tests {
    use super::super::super::collect::tests::{collected, DOCUMENT_01};
    use super::*;

    #[test]
    fn a_line_is_at_its_client_s_ratio() {
        // Of client 0 nothing is dropped, of client 1 the half, which is the largest on the axis, and of all reads a third.
        let drawn = ratios(&collected(&DOCUMENT_01).ended[0]);
        let line = |title: &str| drawn.split(title).nth(1).and_then(|part| part.split('"').nth(1)).map(str::to_string);
        assert_eq!(line("<title>client 0</title>").as_deref(), Some("90.0,214.0 150.0,214.0"));
        assert_eq!(line("<title>client 1</title>").as_deref(), Some("90.0,34.0 150.0,34.0"));
        assert!(drawn.contains("points=\"90.0,94.0 150.0,94.0\"") && drawn.contains(">0.500</text>"));
    }

    #[test]
    fn a_level_line_has_two_ends() {
        let points = [(0.0, 1.0), (1.0, 1.0), (1.0, 1.0), (2.0, 1.0), (2.0, 3.0), (3.0, 3.0)];
        assert_eq!(corners(&points), [(0.0, 1.0), (2.0, 1.0), (2.0, 3.0), (3.0, 3.0)]);
    }
}
