//! What is drawn of a file's sessions, collected while its lines go by. It is read off the answers, and the memory that it takes does
//! not grow with the file.
pub mod chart;
pub mod clients;
pub mod columns;
pub mod evenly;
pub mod recent;

use crate::failure::Failure;
use crate::session::follow::{passes_slot, Counts, Event, Followed, Read};
use crate::session::{Asked, Turn};
use crate::session::watch::Watcher;
use chart::Chart;
use clients::Clients;
use columns::Columns;
use evenly::Evenly;
use recent::Recent;
use std::collections::VecDeque;

/// The last so many sessions of a file are drawn.
pub const MOST_SESSIONS: usize = 24;

/// A session from its open on.
pub struct Collected {
    /// Which of the file's sessions it is, from 1.
    pub place: u64,
    /// The line of its open.
    pub line: u64,
    pub recent: Recent,
    pub columns: Columns,
    pub charts: Evenly<Chart>,
    pub idle: u64,
    pub closed: u64,
    pub refused: u64,
    /// Whether a read was submitted since the last slot passed.
    is_slot_begun: bool,
}

/// A session that has ended, with the clients that are drawn; its columns go by them.
pub struct Ended {
    pub collected: Collected,
    pub followed: Followed,
    pub clients: Clients,
}

impl Ended {
    /// The slot behind the last that is drawn: the one that comes is drawn too, where something was submitted in it.
    pub fn end(&self) -> u64 {
        let Columns { width, columns, .. } = &self.collected.columns;
        self.followed.clock.max((columns.len() as u64).saturating_sub(1) * width + 1)
    }
}

/// The miss ratios as the queue counts them, since the period began: by client, and that of all together last.
fn ratios(followed: &Followed) -> impl Iterator<Item = f64> + '_ {
    let ratio = |counts: &Counts| {
        let (dropped, of) = counts.missed();
        dropped as f64 / of.max(1) as f64
    };
    let all = ratio(&followed.in_period.iter().sum());
    followed.in_period.iter().map(ratio).chain([all])
}

impl Collected {
    fn new(place: u64, line: u64, clients: usize) -> Collected {
        Collected {
            place,
            line,
            recent: Recent::default(),
            columns: Columns::of(clients),
            charts: Evenly::default(),
            idle: 0,
            closed: 0,
            refused: 0,
            is_slot_begun: false,
        }
    }

    /// A slot passes. Its ratios are those before it does, since a period may start behind it.
    fn pass(&mut self, before: &Followed) {
        let column = self.columns.at(before.clock);
        column.slots += 1;
        column.look(ratios(before));
        self.recent.at(before.clock).has_passed = true;
        self.is_slot_begun = false;
    }

    fn take(&mut self, event: &Event, after: &Followed, line: u64) {
        match event {
            Event::Kept(_) => self.is_slot_begun = true,
            Event::Dropped(_, victim) => self.drop_one(victim, after.clock),
            Event::Served { slot, read } => self.serve(*slot, *read),
            Event::Idle { slot } => {
                self.idle += 1;
                self.columns.at(*slot).idle += 1;
            }
            Event::Closed { slot } => self.close(*slot),
            Event::Charted(segments) => self.charts.take(Chart {
                line,
                clock: after.clock,
                hours: after.hours,
                segments: segments.clone(),
                reads: after.chart_order(),
            }),
            Event::Refused(_) => self.refused += 1,
            Event::Opened | Event::Other => {}
        }
    }

    fn drop_one(&mut self, victim: &Read, clock: u64) {
        self.is_slot_begun = true;
        self.columns.at(clock).dropped[victim.client as usize] += 1;
        *self.recent.at(clock).dropped.entry(victim.client).or_default() += 1;
    }

    fn serve(&mut self, slot: u64, read: Read) {
        self.columns.at(slot).served[read.client as usize] += 1;
        self.recent.at(slot).served.push(read);
    }

    fn close(&mut self, slot: u64) {
        self.closed += 1;
        self.columns.at(slot).closed += 1;
        self.recent.at(slot).is_closed = true;
    }

    fn end(mut self, followed: &Followed) -> Ended {
        if self.is_slot_begun {
            self.columns.at(followed.clock).look(ratios(followed));
        }
        let clients = Clients::most_submitted(&followed.clients);
        self.columns = self.columns.folded(&clients.drawn);
        Ended {
            collected: self,
            followed: followed.clone(),
            clients,
        }
    }
}

/// Looks on while a file is read.
#[derive(Default)]
pub struct Collector {
    pub ended: VecDeque<Ended>,
    /// How many sessions the file has.
    pub sessions: u64,
    /// How many lines were refused before the first open.
    pub refused: u64,
    current: Option<Collected>,
    line: u64,
}

impl Collector {
    /// The last session ends with the file.
    pub fn end(&mut self, followed: &Followed) {
        let Some(current) = self.current.take() else { return };
        self.ended.push_back(current.end(followed));
        if self.ended.len() > MOST_SESSIONS {
            self.ended.pop_front();
        }
    }
}

impl Watcher for Collector {
    fn turn(&mut self, turn: &Turn, before: &Followed) -> Result<(), Failure> {
        self.line = turn.line.number;
        match (&mut self.current, &turn.asked) {
            (Some(_), _) if turn.is_opened() => self.end(before),
            (Some(current), Asked::Call(call)) if passes_slot(call, &turn.answers) => current.pass(before),
            _ => {}
        }
        Ok(())
    }

    fn event(&mut self, event: &Event, after: &Followed) {
        match (event, &mut self.current) {
            (Event::Opened, _) => {
                self.sessions += 1;
                self.current = Some(Collected::new(self.sessions, self.line, after.clients.len()));
            }
            (_, Some(current)) => current.take(event, after, self.line),
            (_, None) => self.refused += 1,
        }
    }
}

#[cfg(test)]
pub mod tests {
    use super::*;
    use crate::lines::frames::{Frame, ANSWERS, CALLS};
    use crate::lines::input::Line;

    /// What is collected of lines, each with its answers.
    pub fn collected(lines: &[(&str, &[&str])]) -> Collector {
        let (mut collector, mut followed) = (Collector::default(), Followed::default());
        for (number, (line, answers)) in (1..).zip(lines) {
            let call = Frame::read(line.as_bytes(), &CALLS).unwrap();
            let answers: Vec<Frame> = answers.iter().map(|answer| Frame::read(answer.as_bytes(), &ANSWERS).unwrap()).collect();
            let (text, is_ended) = (line.as_bytes().to_vec(), true);
            let (line, asked) = (Line { number, text, is_ended }, Asked::Call(call.clone()));
            collector.turn(&Turn { line, asked, answers: answers.clone() }, &followed).unwrap();
            let events = followed.take(&call, &answers);
            events.iter().for_each(|event| collector.event(event, &followed));
        }
        collector.end(&followed);
        collector
    }

    pub const DOCUMENT_01: [(&str, &[&str]); 7] = [
        ("01000200000064000800000001FFFFFFFFFFFFFFFFFFFFFFFFFFFFFFFFFFFFFFFFFF", &["81"]),
        ("0200000000000000000001", &["82000000000000000100000000"]),
        ("0200010000000000000002", &["82000000000000000200010000"]),
        ("0200010000000000000001", &["830000000000000003000000000000000300010001"]),
        ("05", &["8700000000000000000000000000000002", "880001"]),
        ("03", &["84000000000000000000000000000000010000"]),
        ("040001", &["8600010000000200000000000000010001"]),
    ];

    /// Two slots an hour, and hours 0 and 2 open: reads in slots 0, 1, 4 and 5, and closed slots between them.
    pub const SMALL: [(&str, &[&str]); 14] = [
        ("01000100000064000800000002A00000000000000000000000000000000000000000", &["81"]),
        ("0200000000000000000003", &["82000000000000000100000000"]),
        ("0200000000000000000005", &["82000000000000000200010000"]),
        ("05", &["8700000000000000010000000000000005", "880001"]),
        ("0200000000000000000006", &["82000000000000000300020000"]),
        ("0200000000000000000005", &["82000000000000000400020001"]),
        ("03", &["84000000000000000000000000000000010000"]),
        ("03", &["84000000000000000100000000000000020000"]),
        ("03", &["890000000000000002"]),
        ("0200000000000000000009", &["830000000000000005000000000000000500000000"]),
        ("03", &["890000000000000003"]),
        ("03", &["84000000000000000400000000000000040000"]),
        ("03", &["84000000000000000500000000000000030000"]),
        ("03", &["890000000000000006"]),
    ];

    #[test]
    fn closed_slots_are_collected() {
        let collector = collected(&SMALL);
        let Ended { collected, followed, .. } = &collector.ended[0];
        assert_eq!((followed.clock, collected.closed, collected.idle), (7, 3, 0));
        let closed: Vec<usize> = (0..7).filter(|&slot| collected.recent.slots[slot].is_closed).collect();
        assert_eq!(closed, [2, 3, 6]);
        let columns: Vec<u64> = collected.columns.columns.iter().map(|column| column.closed).collect();
        assert_eq!(columns, [0, 0, 1, 1, 0, 0, 1]);
        let chart = collected.charts.chosen(1)[0];
        let placed: Vec<(u64, u64)> = chart.placed().map(|(slot, read)| (slot, read.number)).collect();
        assert_eq!(placed, [(1, 1), (4, 2)]);
    }

    #[test]
    fn document_01s_session_is_collected() {
        let collector = collected(&DOCUMENT_01);
        let Ended { collected, followed, .. } = &collector.ended[0];
        let slot = &collected.recent.slots[0];
        assert_eq!((collector.sessions, collected.line, followed.clock, collected.idle), (1, 1, 1, 0));
        assert_eq!((slot.has_passed, slot.served[0].number, slot.dropped.get(&1)), (true, 1, Some(&1)));
        let column = &collected.columns.columns[0];
        assert_eq!((&column.served[..], &column.dropped[..]), (&[1, 0, 0][..], &[0, 1, 0][..]));
        assert_eq!((column.mean(0), column.mean(1), column.mean(2)), (Some(0.0), Some(0.5), Some(1.0 / 3.0)));
        let chart = collected.charts.chosen(1)[0];
        let placed: Vec<(u64, u64)> = chart.placed().map(|(slot, read)| (slot, read.number)).collect();
        assert_eq!((chart.line, chart.clock, placed), (5, 0, vec![(0, 1), (1, 2)]));
    }

    #[test]
    fn an_idle_slot_and_a_slot_that_is_begun_have_columns() {
        let kept = ("0200000000000000000002", &["82000000000000000100000000"][..]);
        let collector = collected(&[DOCUMENT_01[0], ("03", &["850000000000000000"]), kept]);
        let Ended { collected, .. } = &collector.ended[0];
        let columns = &collected.columns.columns;
        assert_eq!((collected.idle, columns[0].idle, columns.len(), columns[1].mean(0)), (1, 1, 2, Some(0.0)));
    }

    #[test]
    fn another_open_begins_another_session() {
        let twice: Vec<(&str, &[&str])> = DOCUMENT_01.into_iter().chain([DOCUMENT_01[0]]).collect();
        let collector = collected(&twice);
        let lines: Vec<u64> = collector.ended.iter().map(|session| session.collected.line).collect();
        assert_eq!((collector.sessions, lines), (2, vec![1, 8]));
        assert!(collector.ended[1].collected.recent.slots.is_empty());
    }

    #[test]
    fn a_refused_tick_passes_no_slot() {
        let collector = collected(&[DOCUMENT_01[0], ("03", &["FF0B"])]);
        let Ended { collected, .. } = &collector.ended[0];
        assert_eq!((collected.refused, collected.columns.columns.len()), (1, 0));
    }

    #[test]
    fn lines_before_the_first_open_are_counted() {
        let collector = collected(&[("03", &["FF04"]), ("05", &["FF04"])]);
        assert_eq!((collector.refused, collector.ended.len()), (2, 0));
    }
}
