//! Runs over time: success by policy, a panel each, and response by client, a panel each.
use super::look::Look;
use super::plot::{Axis, Heading, Plot, PANEL};
use crate::commands::compare::experiment::Experiment;
use crate::commands::compare::outcome::{Comparison, Run};
use crate::commands::compare::table::client_name;
use crate::commands::compare::windows::{self, SHOWN, WINDOW};

const SUCCESS: Axis = Axis {
    title: "success (served in time / arrived)",
    ticks: &[0.0, 0.25, 0.5, 0.75, 1.0],
    is_logarithmic: false,
};

/// The bound of a client's reads decides how the axis is laid out: with short bounds, what is served in time and what is late differ by
/// so much that both are seen only by their orders of magnitude.
fn response_axis(bound: u64) -> &'static Axis {
    const SHORT: Axis = Axis {
        title: "average response, ms (logarithmic)",
        ticks: &[0.1, 0.2, 0.5, 1.0, 2.0, 5.0, 10.0, 20.0, 50.0],
        is_logarithmic: true,
    };
    const LONG: Axis = Axis {
        title: "average response, ms",
        ticks: &[0.0, 10.0, 20.0, 30.0, 40.0, 50.0],
        is_logarithmic: false,
    };
    if bound < 10_000 {
        &SHORT
    } else {
        &LONG
    }
}

/// One panel a policy: the success of each client.
pub fn success(comparison: &Comparison) -> Vec<String> {
    comparison.runs.iter().map(|run| success_of(run, comparison.experiment)).collect()
}

fn success_of(run: &Run, experiment: &Experiment) -> String {
    let clients = 0..experiment.clients.len();
    let legend: Vec<(Look, String)> = clients.map(|client| (Look::Marked(client), client_name(client))).collect();
    let heading = Heading {
        title: run.policy.marked(),
        note: "",
        label: &format!("{}: success of each client over time under {}", experiment.name, run.policy.marked()),
    };
    let mut plot = Plot::new(&PANEL, &heading, &legend, &SUCCESS);
    for (client, (look, _)) in legend.iter().enumerate() {
        let values = windows::success(run, client);
        draw(&mut plot, *look, values.iter().map(|value| value.map(|success| success.ratio())));
    }
    draw_time(&mut plot);
    plot.svg.drawing()
}

/// The response of a client's reads under each policy.
pub fn response(comparison: &Comparison, client: usize) -> String {
    let bound = comparison.experiment.clients[client].bound as f64 / 1_000.0;
    let name = client_name(client);
    let heading = Heading {
        title: &format!("Response of {name}"),
        note: "",
        label: &format!("{}: average response of {name} over time by policy", comparison.experiment.name),
    };
    let runs = || comparison.runs.iter().map(|run| (Look::Line(run.policy), run));
    let mut legend: Vec<(Look, String)> = runs().map(|(look, run)| (look, run.policy.marked().into())).collect();
    legend.push((Look::Bound, format!("the bound, {bound} ms")));
    let mut plot = Plot::new(&PANEL, &heading, &legend, response_axis(comparison.experiment.clients[client].bound));
    let ends = [0.0, 1.0].map(|part| (plot.x(part), plot.y(bound)));
    Look::Bound.draw(&mut plot.svg, &ends);
    // The broad band, which comes last, lies below the thin lines.
    for (look, run) in runs().rev() {
        let values = windows::response(run, client);
        draw(&mut plot, look, values.iter().map(|value| value.map(|micros| micros as f64 / 1_000.0)));
    }
    draw_time(&mut plot);
    plot.svg.drawing()
}

/// Draws a value a window at the window's middle. Where there is none, the line is broken.
fn draw(plot: &mut Plot, look: Look, values: impl Iterator<Item = Option<f64>>) {
    let middle = |window: usize| (window as f64 + 0.5) * WINDOW as f64 / SHOWN as f64;
    let point = |(window, value): (usize, Option<f64>)| value.map(|value| (plot.x(middle(window)), plot.y(value)));
    let points: Vec<Option<(f64, f64)>> = values.enumerate().map(point).collect();
    for piece in points.split(Option::is_none) {
        let piece: Vec<(f64, f64)> = piece.iter().flatten().copied().collect();
        look.draw(&mut plot.svg, &piece);
    }
}

fn draw_time(plot: &mut Plot) {
    let label = |quarter: u64| (quarter as f64 / 4.0, (quarter * SHOWN / 4_000).to_string());
    let labels: Vec<(f64, String)> = (0..=4).map(label).collect();
    plot.draw_below("arrival of the reads, ms", &labels);
}

#[cfg(test)]
mod tests {
    use super::*;
    use crate::commands::compare::experiment::{Arrival, EXPERIMENTS};
    use crate::commands::compare::outcome::Outcome;
    use crate::commands::compare::policy::Policy;

    /// The first experiment, in which a read of each client arrives at time 0 and is served in a slot, if it is.
    fn comparison(served: [Option<u64>; 2]) -> Comparison {
        let outcome = |client: usize| Outcome {
            arrival: Arrival::new(client, 0, 500),
            served: served[client],
        };
        Comparison {
            experiment: &EXPERIMENTS[0],
            runs: vec![Run::new(Policy::Edf, 2, [0, 1].map(outcome).to_vec())],
        }
    }

    /// The points of the lines that have only one.
    fn marks(drawn: &str) -> Vec<&str> {
        let points = drawn.split("points=\"").skip(1).filter_map(|part| part.split('"').next());
        points.filter(|points| points.matches(',').count() == 1).collect()
    }

    #[test]
    fn each_client_has_its_own_success() {
        let drawn = success(&comparison([Some(0), None])).concat();
        let marks = marks(&drawn);
        assert_eq!(marks.len(), 2);
        assert_ne!(marks[0], marks[1]);
    }

    #[test]
    fn a_response_is_in_milliseconds() {
        // 7 slots of 137 µs are 0.959 ms, which stand just below the axis's 1.
        let drawn = response(&comparison([Some(6), None]), 0);
        let y: f64 = marks(&drawn)[0].split(',').nth(1).unwrap().parse().unwrap();
        let tick = |name: &str| -> f64 {
            let label = drawn.split(&format!(">{name}</text>")).next().unwrap();
            label.rsplit("y=\"").next().unwrap().split('"').next().unwrap().parse().unwrap()
        };
        assert!(y > tick("1") - 0.35 * PANEL.text && y < tick("0.5"), "{y} {} {}", tick("1"), tick("0.5"));
    }
}
