//! How policies and clients look, the same in every figure and legend.
use crate::commands::compare::policy::Policy;
use crate::drawing::svg::{colour, Svg};
use std::fmt::Display;

#[derive(Clone, Copy)]
pub enum Look {
    /// What is simulated is pale and what is proved is full.
    Bar(Policy),
    /// What is simulated is thin and broken, and what is proved is a broad band, on which the thin ones are seen where they run alike.
    Line(Policy),
    /// A client's line with a mark at each point, for those who do not tell the colours apart.
    Marked(usize),
    /// A bound, which no read may pass.
    Bound,
}

/// None of them is the colour of one of the first two clients, which stand in figures of their own.
fn policy_colour(policy: Policy) -> &'static str {
    match policy {
        Policy::Edf => colour(8),
        Policy::PrudentEdf => colour(5),
        Policy::NewcomerDropped => colour(2),
        Policy::Queue => colour(7),
    }
}

fn dashes(look: Look) -> &'static str {
    match look {
        Look::Line(Policy::Edf) => "3 3",
        Look::Line(Policy::PrudentEdf) => "10 10",
        Look::Line(Policy::NewcomerDropped) => "8 3 2 3",
        _ => "none",
    }
}

impl Look {
    fn colour(self) -> &'static str {
        match self {
            Look::Bar(policy) | Look::Line(policy) => policy_colour(policy),
            Look::Marked(client) => colour(client),
            Look::Bound => "#222",
        }
    }

    /// The width and the opacity of its line.
    fn stroke(self) -> (f64, f64) {
        match self {
            Look::Line(Policy::Queue) => (9.0, 0.5),
            Look::Bound => (1.0, 1.0),
            _ => (2.0, 1.0),
        }
    }

    /// Draws a line through points, or a bar between two corners.
    pub fn draw(self, svg: &mut Svg, points: &[(f64, f64)]) {
        match (self, points) {
            (Look::Bar(policy), [from, to]) => draw_bar(svg, policy, *from, *to),
            _ => self.draw_line(svg, points),
        }
    }

    fn draw_line(self, svg: &mut Svg, points: &[(f64, f64)]) {
        let places: Vec<String> = points.iter().map(|(x, y)| format!("{x:.2},{y:.2}")).collect();
        let (width, opacity) = self.stroke();
        let attributes: [(&str, &dyn Display); 6] = [
            ("points", &places.join(" ")),
            ("fill", &"none"),
            ("stroke", &self.colour()),
            ("stroke-width", &width),
            ("stroke-opacity", &opacity),
            ("stroke-dasharray", &dashes(self)),
        ];
        svg.add("polyline", &attributes, "");
        if let Look::Marked(client) = self {
            points.iter().for_each(|point| draw_mark(svg, client, *point));
        }
    }

    /// A small piece of it, whose left end is at this point, for a legend.
    pub fn sample(self, svg: &mut Svg, (x, y): (f64, f64), length: f64) {
        match self {
            Look::Bar(_) => self.draw(svg, &[(x + length / 4.0, y - length / 4.0), (x + 3.0 * length / 4.0, y + length / 4.0)]),
            Look::Marked(_) => self.draw(svg, &[(x + length / 5.0, y), (x + 4.0 * length / 5.0, y)]),
            _ => self.draw(svg, &[(x, y), (x + length, y)]),
        }
    }
}

fn draw_bar(svg: &mut Svg, policy: Policy, (left, top): (f64, f64), (right, bottom): (f64, f64)) {
    let opacity = if policy.is_simulated() { 0.3 } else { 1.0 };
    let [x, y, width, height] = [left, top, right - left, bottom - top].map(|value| format!("{value:.2}"));
    let attributes: [(&str, &dyn Display); 7] = [
        ("x", &x),
        ("y", &y),
        ("width", &width),
        ("height", &height),
        ("fill", &policy_colour(policy)),
        ("fill-opacity", &opacity),
        ("stroke", &policy_colour(policy)),
    ];
    svg.add("rect", &attributes, "");
}

/// Discs and squares in turn.
fn draw_mark(svg: &mut Svg, client: usize, (x, y): (f64, f64)) {
    let fill = Look::Marked(client).colour();
    if client.is_multiple_of(2) {
        let (x, y) = (format!("{x:.2}"), format!("{y:.2}"));
        svg.add("circle", &[("cx", &x), ("cy", &y), ("r", &4), ("fill", &fill)], "");
    } else {
        svg.rect((x - 3.5, y - 3.5), (7.0, 7.0), fill);
    }
}
