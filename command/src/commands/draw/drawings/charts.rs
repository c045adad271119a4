//! Occupancy charts: the reads that wait, with the segments above them and the deadlines below.
mod boxes;
mod profile;

use super::super::collect::chart::Chart;
use super::super::collect::Ended;
use super::super::said;
use super::colours::{entry, legend, LEGEND};
use crate::drawing::page::{drawings, paragraph};
use crate::drawing::svg::Svg;

/// Segments are named above what is drawn.
const TOP: f64 = 28.0;
/// A character of a small text is at most so wide.
const CHARACTER: f64 = 6.2;

fn length(text: &str) -> f64 {
    text.len() as f64 * CHARACTER
}

/// What a chart is, and how it is read.
const SAID: &str = "\
The chart gives each waiting read the latest slot in which it and all later ones still end by their deadlines. A box is a read, with \
its number and its deadline; a mark on the axis is a deadline, and a line above is a segment.";
const CLOSED: &str = " A hatched slot is closed: no read has it, and a segment may span it.";

fn chart(session: &Ended, chart: &Chart) -> String {
    let mut said = said::heading(chart);
    if chart.reads.is_empty() {
        return paragraph(&said);
    }
    said += &match chart.segments.len() {
        1 => format!(" Segment: {}.", said::segments(chart).join(" ")),
        _ => format!(" Segments: {}.", said::segments(chart).join(" ")),
    };
    let boxes = boxes::boxes(session, chart).map(|drawn| (String::new(), drawn));
    let (more, drawn) = boxes.unwrap_or_else(|| profile::profile(session, chart));
    format!("{}{}", paragraph(&(said + &more)), drawings(&drawn))
}

/// The colours of the clients.
fn key(session: &Ended) -> String {
    let rows = session.clients.rows();
    let mut svg = Svg::new(entry(rows), LEGEND, "The colours of the clients");
    legend(&mut svg, &session.clients, rows);
    drawings(&svg.drawing())
}

pub fn charts(session: &Ended, most: usize) -> String {
    let charts = &session.collected.charts;
    let chosen = charts.chosen(most);
    if chosen.is_empty() {
        return paragraph("No chart was asked for.");
    }
    let closed = if session.followed.hours.has_closed() { CLOSED } else { "" };
    let some = said::chosen(chosen.len(), charts.count).map(|said| format!(" {said}"));
    let drawn: String = chosen.iter().map(|drawn| chart(session, drawn)).collect();
    format!("{}{}{drawn}", paragraph(&format!("{SAID}{closed}{}", some.unwrap_or_default())), key(session))
}
