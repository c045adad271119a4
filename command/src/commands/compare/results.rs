//! The comparison as a page: tables and figures, and what they show.
use super::experiment::{Drawn, LENGTH, SLOT};
use super::figures;
use super::outcome::{Comparison, Run};
use super::table::{about, client_name, SOURCES};
use super::windows::WINDOW;
use crate::drawing::page::{heading, page, paragraph, table};
use crate::drawing::svg::escaped;

const TITLE: &str = "What fairness is worth";

/// What is said under each figure of where it is from.
const MARKED: &str = "Plain EDF, Prudent-EDF and newcomer dropped are simulated, and the queue is the proved program.";

/// The whole page.
pub fn results(comparisons: &[Comparison]) -> String {
    let sections: String = comparisons.iter().map(section).collect();
    page(TITLE, &[introduction(), summary(comparisons), sections].concat())
}

fn introduction() -> String {
    let rule = format!(
        "Experiments 1 and 2 of the paper on Fair-EDF, in whole slots: a slot is its service time, {SLOT} µs. A read is submitted at \
         the first slot start that is not before its arrival, and its deadline is the last slot start by which its bound has not \
         passed; where that leaves it no slot, it is a miss. Reads arrive for {} second, and then the run goes on until nothing waits.",
        LENGTH / 1_000_000
    );
    let policies = "Plain EDF serves the earliest deadline and drops nothing. Prudent-EDF discards a read only when the coming slot is \
                    too late for it. Newcomer dropped is the queue's rule, but where not all can finish, the new read is always the \
                    one dropped. The queue drops a read of the client with the smallest miss ratio among those whose removal helps.";
    let success = "Success is served in time / arrived, of all reads (the system) and of the worst client.";
    [&rule, policies, success, SOURCES].map(paragraph).concat()
}

/// The same as at a terminal: a row a policy.
fn summary(comparisons: &[Comparison]) -> String {
    let names = |comparison: &Comparison| ["system", "worst client"].map(|of| format!("{}: {of}", comparison.experiment.name));
    let head = ["policy".to_string()].into_iter().chain(comparisons.iter().flat_map(names)).collect();
    let runs = comparisons.first().map_or(0, |comparison| comparison.runs.len());
    let rows = (0..runs).map(|place| summary_row(comparisons.iter().map(|comparison| &comparison.runs[place]).collect()));
    table(&[head].into_iter().chain(rows).collect::<Vec<_>>())
}

/// A policy in each experiment.
fn summary_row(runs: Vec<&Run>) -> Vec<String> {
    let cells = runs.iter().flat_map(|run| {
        let worst = run.worst();
        [run.system.to_string(), format!("{} ({})", run.clients[worst], unbroken(&client_name(worst)))]
    });
    let name = runs.first().map_or("", |run| run.policy.marked());
    [name.to_string()].into_iter().chain(cells).collect()
}

fn section(comparison: &Comparison) -> String {
    let figures = match comparison.experiment.drawn {
        Drawn::OverTime => over_time(comparison),
        Drawn::ByClient => by_client(comparison),
    };
    let said = paragraph("What each client asks for, and its success under each policy:");
    [heading(&about(comparison)), said, clients(comparison), figures].concat()
}

/// What each client asks for and what it gets, a row each.
fn clients(comparison: &Comparison) -> String {
    let head = ["client", "reads at a time", "every", "bound"].into_iter();
    let head = head.chain(comparison.runs.iter().map(|run| run.policy.marked()));
    let rows = comparison.experiment.clients.iter().enumerate().map(|(number, client)| {
        let asked = [(number + 1).to_string(), client.burst.to_string(), milliseconds(client.interval), milliseconds(client.bound)];
        let got = comparison.runs.iter().map(|run| run.clients[number].to_string());
        asked.into_iter().chain(got).collect()
    });
    table(&[head.map(String::from).collect()].into_iter().chain(rows).collect::<Vec<_>>())
}

fn milliseconds(micros: u64) -> String {
    unbroken(&format!("{} ms", micros as f64 / 1_000.0))
}

/// Words between which a line does not end.
fn unbroken(words: &str) -> String {
    words.replace(' ', "\u{a0}")
}

/// What stands side by side where there is room, and else one below the other.
fn beside(parts: &[String]) -> String {
    format!("<div style=\"display: flex; flex-wrap: wrap; gap: 1rem\">\n{}</div>\n", parts.concat())
}

/// A drawing or several, with what they show below them.
fn figure(drawings: &str, caption: &str) -> String {
    let caption = escaped(&format!("{caption} {MARKED}"));
    format!(
        "<figure style=\"margin: 2rem 0 0; max-width: 856px\">\n{drawings}\
         <figcaption style=\"margin-top: .5rem\">{caption}</figcaption>\n</figure>\n"
    )
}

fn over_time(comparison: &Comparison) -> String {
    let window = milliseconds(WINDOW);
    let success = format!(
        "After the paper's figure 3a: success over time. Each point is the share of a client's reads that were served in time, of \
         those that arrived within {window}."
    );
    let success = figure(&beside(&figures::success(comparison)), &success);
    let response = |(client, name): (usize, &str)| {
        let caption = format!(
            "After figure {name}: response over time. Each point is the average time from arrival to the end of service, of the \
             reads of {} that arrived within {window} and were served, in time or late.",
            client_name(client)
        );
        format!("<div style=\"width: 420px\">{}</div>\n", figure(&figures::response(comparison, client), &caption))
    };
    success + &beside(&[(0, "3b"), (1, "3c")].map(response))
}

fn by_client(comparison: &Comparison) -> String {
    let caption = "After the paper's figure 4: success of each client and of the system over the whole run, a bar a policy.";
    figure(&beside(&figures::in_panels(comparison)), caption)
}
