//! Drawings as SVG, to stand in a page or by themselves.
use std::fmt::{Display, Write};

/// Colours that people who see colours differently tell apart too, one a client; more clients take them again from the first.
const COLOURS: [&str; 10] = [
    "#0072b2", "#e69f00", "#009e73", "#cc79a7", "#56b4e9", "#d55e00", "#b8a500", "#6a3d9a", "#7f7f7f", "#8c510a",
];

/// So far apart are slanting lines.
const HATCH: f64 = 6.0;

pub fn colour(client: usize) -> &'static str {
    COLOURS[client % COLOURS.len()]
}

/// Text as it may stand in SVG and HTML.
pub fn escaped(text: &str) -> String {
    text.replace('&', "&amp;").replace('<', "&lt;").replace('>', "&gt;").replace('"', "&quot;")
}

/// A drawing of this many units in width and height. It grows and shrinks with the place that it is given.
pub struct Svg {
    width: f64,
    height: f64,
    label: String,
    body: String,
}

impl Svg {
    /// The label says in words what the drawing shows, for those who do not see it.
    pub fn new(width: f64, height: f64, label: &str) -> Svg {
        Svg {
            width,
            height,
            label: escaped(label),
            body: String::new(),
        }
    }

    /// An element with these attributes, and the text in it.
    pub fn add(&mut self, element: &str, attributes: &[(&str, &dyn Display)], text: &str) {
        let _ = write!(self.body, "<{element}");
        for (name, value) in attributes {
            let _ = write!(self.body, " {name}=\"{}\"", escaped(&value.to_string()));
        }
        let _ = writeln!(self.body, ">{}</{element}>", escaped(text));
    }

    pub fn rect(&mut self, (x, y): (f64, f64), (width, height): (f64, f64), fill: &str) {
        let place: [(&str, &dyn Display); 5] = [
            ("x", &rounded(x)),
            ("y", &rounded(y)),
            ("width", &rounded(width)),
            ("height", &rounded(height)),
            ("fill", &fill),
        ];
        self.add("rect", &place, "");
    }

    pub fn line(&mut self, (x1, y1): (f64, f64), (x2, y2): (f64, f64), stroke: &str) {
        let ends: [(&str, &dyn Display); 5] = [
            ("x1", &rounded(x1)),
            ("y1", &rounded(y1)),
            ("x2", &rounded(x2)),
            ("y2", &rounded(y2)),
            ("stroke", &stroke),
        ];
        self.add("line", &ends, "");
    }

    /// Text of this size and colour.
    pub fn label(&mut self, (x, y): (f64, f64), anchor: &str, (size, fill): (f64, &str), text: &str) {
        let attributes: [(&str, &dyn Display); 5] =
            [("x", &rounded(x)), ("y", &rounded(y)), ("text-anchor", &anchor), ("font-size", &rounded(size)), ("fill", &fill)];
        self.add("text", &attributes, text);
    }

    /// Rectangles of one colour, each with its place and size, as one element: a drawing has many.
    pub fn rects(&mut self, rects: &[((f64, f64), (f64, f64))], fill: &str) {
        let outline = |&((x, y), (width, height)): &((f64, f64), (f64, f64))| {
            format!("M{} {}h{}v{}H{}z", rounded(x), rounded(y), rounded(width), rounded(height), rounded(x))
        };
        let outlines: String = rects.iter().map(outline).collect();
        self.add("path", &[("d", &outlines), ("fill", &fill)], "");
    }

    /// A rectangle filled with slanting lines.
    pub fn hatch(&mut self, (x, y): (f64, f64), (width, height): (f64, f64), stroke: &str) {
        let steps = (0..).map(|step| HATCH * (f64::from(step) + 0.5) - height).take_while(|&start| start < width);
        let line = |start: f64| {
            // From the lower edge to the upper, as far as it lies within the rectangle.
            let (from, to) = ((-start).max(0.0), (width - start).min(height));
            let ends = [(x + start + from, y + height - from), (x + start + to, y + height - to)];
            let [(x1, y1), (x2, y2)] = ends.map(|(x, y)| (rounded(x), rounded(y)));
            format!("M{x1} {y1}L{x2} {y2}")
        };
        let lines: String = steps.map(line).collect();
        self.add("path", &[("d", &lines), ("stroke", &stroke), ("fill", &"none")], "");
    }

    /// What is drawn meanwhile has a title, which is shown to whoever points at it.
    pub fn titled(&mut self, title: &str, draw: impl FnOnce(&mut Svg)) {
        let _ = write!(self.body, "<g><title>{}</title>", escaped(title));
        draw(self);
        let _ = writeln!(self.body, "</g>");
    }

    /// The drawing as an element of a page, which is a file of its own too.
    pub fn drawing(&self) -> String {
        format!(
            "<svg xmlns=\"http://www.w3.org/2000/svg\" viewBox=\"0 0 {w} {h}\" width=\"{w}\" height=\"{h}\" role=\"img\" \
             aria-label=\"{}\" font-family=\"sans-serif\" font-size=\"12\">\n{}</svg>\n",
            self.label,
            self.body,
            w = rounded(self.width),
            h = rounded(self.height)
        )
    }
}

/// To a hundredth, so that the same drawing is the same file.
fn rounded(value: f64) -> f64 {
    (value * 100.0).round() / 100.0
}

#[cfg(test)]
mod tests {
    use super::*;

    #[test]
    fn slanting_lines_stay_within_their_rectangle() {
        let mut svg = Svg::new(100.0, 100.0, "");
        svg.hatch((10.0, 20.0), (36.0, 30.0), "#000000");
        let drawn = svg.drawing();
        let lines = drawn.split("d=\"M").nth(1).and_then(|part| part.split('"').next()).unwrap_or_default();
        let ends: Vec<f64> = lines.split(['M', 'L', ' ']).map(|number| number.parse().unwrap()).collect();
        assert!(ends.chunks(2).all(|end| (10.0..=46.0).contains(&end[0]) && (20.0..=50.0).contains(&end[1])), "{lines}");
        assert_eq!(ends.len(), 4 * 11);
    }

    #[test]
    fn text_is_no_markup() {
        assert_eq!(escaped("<a b=\"&\">"), "&lt;a b=&quot;&amp;&quot;&gt;");
    }
}
