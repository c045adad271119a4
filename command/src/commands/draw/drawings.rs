//! Sessions as a page for a browser.
mod charts;
mod colours;
mod ratios;
mod scale;
mod slots;

use super::collect::Ended;
use super::said;
use crate::session::follow::Counts;
use crate::numbers::{counted, grouped, share};
use crate::drawing::page::{self, heading, paragraph, subheading};
use std::collections::VecDeque;

/// So many charts a page has, where each session has many; a session has no more than are kept of it.
const ALL_CHARTS: usize = 120;

/// The counts of the clients in a row, or of all, with how many of their reads wait.
fn row(session: &Ended, name: String, is_in: impl Fn(usize) -> bool) -> Vec<String> {
    let clients = session.followed.clients.iter().enumerate().filter(|(client, _)| is_in(*client));
    let counts: Counts = clients.map(|(_, counts)| counts).sum();
    let waiting = session.followed.waiting.values().filter(|read| is_in(read.client as usize)).count() as u64;
    let (missed, of) = counts.missed();
    let shown = [counts.submitted, counts.served, counts.dropped, waiting].map(grouped);
    [name].into_iter().chain(shown).chain([share(missed, of)]).collect()
}

fn counts(session: &Ended) -> String {
    let clients = &session.clients;
    let head = ["client", "submitted", "served", "dropped", "waiting", "miss ratio"].map(String::from).to_vec();
    let rows = (0..clients.rows()).map(|place| row(session, clients.number(place), |client| clients.place(client as u64) == place));
    let all = row(session, "all".into(), |_| true);
    let table = page::table(&[head].into_iter().chain(rows).chain([all]).collect::<Vec<_>>());
    let silent = match clients.silent {
        0 => String::new(),
        silent => paragraph(&format!("{} submitted nothing.", counted(silent, "client"))),
    };
    table + &silent
}

fn section(session: &Ended, most_charts: usize) -> String {
    let parts = [
        heading(&format!("Session {}", session.collected.place)),
        paragraph(&format!("{} {}", said::setup(session), said::outcome(session))),
        counts(session),
        subheading("Who was served when"),
        slots::slots(session),
        subheading("Miss ratios over time"),
        ratios::ratios(session),
        subheading("Occupancy charts"),
        charts::charts(session, most_charts),
    ];
    parts.concat()
}

pub fn page(file: &str, preface: Option<String>, sessions: &VecDeque<Ended>) -> String {
    let file = if file == "-" { "the standard input" } else { file };
    let preface = preface.map(|said| paragraph(&said));
    let sections = sessions.iter().map(|session| section(session, ALL_CHARTS / sessions.len()));
    let body: String = preface.into_iter().chain(sections).collect();
    page::page(&format!("The read queue in {file}"), &body)
}
