//! What is said of a session and of a chart, as text and on a page alike.
use super::collect::chart::Chart;
use super::collect::Ended;
use crate::session::follow::{Counts, Read};
use crate::numbers::{counted, grouped};
use crate::said::say;

/// So many segments are named.
const NAMED: usize = 12;

/// What the session was opened with.
pub fn setup(session: &Ended) -> String {
    say::opened(session.collected.line, &session.followed)
}

/// What it came to.
pub fn outcome(session: &Ended) -> String {
    let Ended { collected, followed, .. } = session;
    let counts: Counts = followed.clients.iter().sum();
    let reads = counted(counts.submitted, "read");
    let [served, dropped] = [counts.served, counts.dropped].map(grouped);
    let (slots, idle) = (counted(followed.clock, "slot"), grouped(collected.idle));
    let closed = say::closed(collected.closed, followed);
    let waiting = grouped(followed.waiting.len() as u64);
    let refused = refused(collected.refused);
    format!("{slots} passed, {idle} idle{closed}; {reads}: {served} served, {dropped} dropped, {waiting} waiting.{refused}")
}

/// How many lines were refused, where some were, to stand behind another sentence.
pub fn refused(lines: u64) -> String {
    match lines {
        0 => String::new(),
        _ => format!(" Refused: {}.", counted(lines, "line")),
    }
}

/// A read that was served in a slot, or has it on a chart.
pub fn read(slot: u64, read: &Read) -> String {
    let Read { number, client, deadline, since } = read;
    format!("slot {slot}: number {number} of client {client}, submitted at clock {since}, to end by {deadline}")
}

/// Where the chart stands in the session, and how much waits.
pub fn heading(chart: &Chart) -> String {
    let (line, clock) = (grouped(chart.line), chart.clock);
    match chart.reads.len() as u64 {
        0 => format!("Chart in line {line}, at clock {clock}: nothing waits."),
        1 => format!("Chart in line {line}, at clock {clock}: 1 read waits."),
        waiting => format!("Chart in line {line}, at clock {clock}: {} wait.", counted(waiting, "read")),
    }
}

/// The segments, as many as are named, each to stand in one line.
pub fn segments(chart: &Chart) -> Vec<String> {
    let more = chart.segments.len().saturating_sub(NAMED) as u64;
    let last = chart.segments.len().min(NAMED).saturating_sub(1);
    let named = chart.segments.iter().take(NAMED).map(segment).enumerate();
    let named = named.map(|(place, name)| if place == last { name } else { name + "," });
    let more = (more > 0).then(|| format!("and {} more", grouped(more)));
    named.chain(more).collect()
}

pub fn segment((left, right): &(u64, u64)) -> String {
    format!("[{left}, {right}]")
}

/// What is said before charts of which some are not drawn.
pub fn chosen(drawn: usize, charts: u64) -> Option<String> {
    (drawn as u64 != charts).then(|| format!("{drawn} of {} charts are drawn, evenly chosen.", grouped(charts)))
}

#[cfg(test)]
mod tests {
    use super::super::collect::chart::tests::chart_of;
    use super::*;

    #[test]
    fn one_read_waits_and_two_wait() {
        assert_eq!(heading(&chart_of(&[1], &[(0, 1)])), "Chart in line 5, at clock 0: 1 read waits.");
        assert_eq!(heading(&chart_of(&[1, 2], &[(0, 2)])), "Chart in line 5, at clock 0: 2 reads wait.");
    }
}
