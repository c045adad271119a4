//! Success by client and of the system: a group of bars each, and in it a bar a policy.
use super::look::Look;
use super::plot::{Axis, Heading, Plot, Size, PANEL, WHOLE};
use crate::commands::compare::outcome::{Comparison, Run, Success};
use std::ops::Range;

const SUCCESS: Axis = Axis {
    title: "success (served in time / arrived)",
    ticks: &[0.0, 0.2, 0.4, 0.6, 0.8, 1.0],
    is_logarithmic: false,
};

/// So much of a group's width is between the groups.
const BETWEEN: f64 = 0.14;

/// In one drawing.
pub fn whole(comparison: &Comparison) -> String {
    let clients = comparison.experiment.clients.len();
    let title = format!("{}: success by client and of the system", comparison.experiment.name);
    drawing(comparison, 0..clients + 1, &title, &WHOLE)
}

/// In two drawings, that stand beside or below each other.
pub fn in_panels(comparison: &Comparison) -> [String; 2] {
    let clients = comparison.experiment.clients.len();
    let middle = clients / 2;
    [
        drawing(comparison, 0..middle, &format!("Clients 1 to {middle}"), &PANEL),
        drawing(comparison, middle..clients + 1, &format!("Clients {} to {clients}, and the system", middle + 1), &PANEL),
    ]
}

/// Behind the clients stands the system.
fn group_name(group: usize, comparison: &Comparison) -> String {
    if group < comparison.experiment.clients.len() {
        (group + 1).to_string()
    } else {
        "system".into()
    }
}

fn group_success(group: usize, run: &Run) -> Success {
    run.clients.get(group).copied().unwrap_or(run.system)
}

fn drawing(comparison: &Comparison, groups: Range<usize>, title: &str, size: &Size) -> String {
    let entry = |run: &Run| (Look::Bar(run.policy), run.policy.marked().to_string());
    let legend: Vec<(Look, String)> = comparison.runs.iter().map(entry).collect();
    let heading = Heading {
        title,
        note: "Numbers: each policy's worst client.",
        label: &format!("{}: success by client, and of the system, by policy", comparison.experiment.name),
    };
    let mut plot = Plot::new(size, &heading, &legend, &SUCCESS);
    let count = groups.len() as f64;
    let mut labels = vec![];
    for (place, group) in groups.enumerate() {
        let (from, to) = (place as f64 / count, (place + 1) as f64 / count);
        draw_group(&mut plot, comparison, group, (from, to));
        labels.push(((from + to) / 2.0, group_name(group, comparison)));
    }
    plot.draw_below("client", &labels);
    plot.svg.drawing()
}

fn draw_group(plot: &mut Plot, comparison: &Comparison, group: usize, (from, to): (f64, f64)) {
    let width = (to - from) * (1.0 - BETWEEN) / comparison.runs.len() as f64;
    let mut left = from + (to - from) * BETWEEN / 2.0;
    for run in &comparison.runs {
        let success = group_success(group, run);
        let (top, right) = (plot.y(success.ratio()), left + width);
        let corners = [(plot.x(left), top), (plot.x(right), plot.y(0.0))];
        Look::Bar(run.policy).draw(&mut plot.svg, &corners);
        if run.worst() == group {
            plot.write_upwards((plot.x(left + width / 2.0), top - 4.0), &success.to_string());
        }
        left = right;
    }
}
