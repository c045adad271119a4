//! The frame of a chart: a heading, a legend above everything that is drawn, and axes with their units.
use super::look::Look;
use crate::drawing::svg::Svg;
use std::fmt::Display;

const GRID: &str = "#ddd";
const AXIS: &str = "#444";

/// How large a drawing and its text are, in units, and in how many columns its legend stands.
pub struct Size {
    pub width: f64,
    pub height: f64,
    pub text: f64,
    pub columns: usize,
}

/// Half as wide as a page, and all that a small one has: its text stays readable there.
pub const PANEL: Size = Size {
    width: 420.0,
    height: 190.0,
    text: 14.0,
    columns: 1,
};

/// For a document that shows one drawing by itself.
pub const WHOLE: Size = Size {
    width: 860.0,
    height: 330.0,
    text: 20.0,
    columns: 2,
};

/// An axis from its first tick to its last.
pub struct Axis {
    pub title: &'static str,
    pub ticks: &'static [f64],
    pub is_logarithmic: bool,
}

impl Axis {
    /// How far along the axis a value stands, from 0 to 1.
    fn part(&self, value: f64) -> f64 {
        let along = |value: f64| if self.is_logarithmic { value.ln() } else { value };
        let (first, last) = (self.ticks[0], self.ticks[self.ticks.len() - 1]);
        (along(value) - along(first)) / (along(last) - along(first))
    }
}

pub struct Plot {
    pub svg: Svg,
    text: f64,
    left: f64,
    right: f64,
    top: f64,
    bottom: f64,
    up: &'static Axis,
}

/// What stands over a chart, and what is said of it to those who do not see it.
pub struct Heading<'a> {
    pub title: &'a str,
    pub note: &'a str,
    pub label: &'a str,
}

impl Plot {
    pub fn new(size: &Size, heading: &Heading, legend: &[(Look, String)], up: &'static Axis) -> Plot {
        let text = size.text;
        let note_height = if heading.note.is_empty() { 0.0 } else { 1.6 };
        let rows = legend.len().div_ceil(size.columns) as f64;
        let top = text * (5.6 + note_height + 1.6 * rows);
        let bottom = top + size.height;
        let mut plot = Plot {
            svg: Svg::new(size.width, bottom + 3.4 * text, heading.label),
            text,
            left: 3.2 * text,
            right: size.width - text,
            top,
            bottom,
            up,
        };
        // A ground of its own, so that it can be read on a dark page too.
        plot.svg.rect((0.0, 0.0), (size.width, bottom + 3.4 * text), "#fff");
        plot.write((0.4 * text, 1.5 * text), "start", heading.title, "bold");
        plot.write((0.4 * text, 3.0 * text), "start", heading.note, "normal");
        plot.draw_legend(size, legend, text * (3.2 + note_height));
        plot.draw_up();
        plot
    }

    fn draw_legend(&mut self, size: &Size, legend: &[(Look, String)], from: f64) {
        let width = (size.width - self.text) / size.columns as f64;
        for (place, (look, name)) in legend.iter().enumerate() {
            let x = 0.4 * self.text + width * (place % size.columns) as f64;
            let y = from + 1.6 * self.text * (place / size.columns) as f64;
            look.sample(&mut self.svg, (x, y - 0.35 * self.text), 2.4 * self.text);
            self.write((x + 3.0 * self.text, y), "start", name, "normal");
        }
    }

    fn draw_up(&mut self) {
        let title_at = (0.4 * self.text, self.top - 1.5 * self.text);
        self.write(title_at, "start", self.up.title, "normal");
        for &tick in self.up.ticks {
            let y = self.y(tick);
            self.svg.line((self.left, y), (self.right, y), GRID);
            self.write((self.left - 0.4 * self.text, y + 0.35 * self.text), "end", &tick.to_string(), "normal");
        }
        self.svg.line((self.left, self.top), (self.left, self.bottom), AXIS);
    }

    /// The axis below, with labels at some parts of it from 0 to 1. It is drawn last, so that nothing lies over it.
    pub fn draw_below(&mut self, title: &str, labels: &[(f64, String)]) {
        self.svg.line((self.left, self.bottom), (self.right, self.bottom), AXIS);
        for (part, label) in labels {
            let x = self.x(*part);
            self.write((x, self.bottom + 1.3 * self.text), "middle", label, "normal");
        }
        let title_at = (self.x(0.5), self.bottom + 2.8 * self.text);
        self.write(title_at, "middle", title, "normal");
    }

    /// Where a part of the axis below stands, from 0 to 1.
    pub fn x(&self, part: f64) -> f64 {
        self.left + part * (self.right - self.left)
    }

    /// Where a value stands. None leaves the axis, which has to be long enough.
    pub fn y(&self, value: f64) -> f64 {
        self.bottom - self.up.part(value).clamp(0.0, 1.0) * (self.bottom - self.top)
    }

    fn write(&mut self, (x, y): (f64, f64), anchor: &str, text: &str, weight: &str) {
        if !text.is_empty() {
            let [x, y] = [x, y].map(|value| format!("{value:.2}"));
            let attributes: [(&str, &dyn Display); 5] =
                [("x", &x), ("y", &y), ("text-anchor", &anchor), ("font-size", &self.text), ("font-weight", &weight)];
            self.svg.add("text", &attributes, text);
        }
    }

    /// Writes upwards from a point, small enough for the width of a bar.
    pub fn write_upwards(&mut self, (x, y): (f64, f64), text: &str) {
        let turned = format!("translate({:.2} {y:.2}) rotate(-90)", x + 0.29 * self.text);
        let size = format!("{:.2}", 0.8 * self.text);
        self.svg.add("text", &[("transform", &turned), ("font-size", &size)], text);
    }
}
