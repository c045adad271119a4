//! Answers in words, with the reasons of refusals.
use crate::session::follow::Followed;
use crate::lines::frames::{Frame, CHARTED, DROPPED, OPEN, REFUSED, SEGMENT};
use crate::numbers::{counted, grouped};
use crate::session::{Asked, Turn};

/// So many segments are named in one answer.
const NAMED: usize = 12;

/// What a session was opened with, and in which line.
pub fn opened(line: u64, followed: &Followed) -> String {
    let clients = counted(followed.clients.len() as u64, "client");
    let records = counted(followed.records, "waiting record");
    let hours = followed.hours.said();
    format!("Opened in line {}: {clients}, period {}, {records}.{hours}", grouped(line), grouped(followed.period))
}

/// How many slots were closed, to stand behind how many were idle; nothing where every hour is open.
pub fn closed(slots: u64, followed: &Followed) -> String {
    match followed.hours.has_closed() {
        true => format!(", {} closed", grouped(slots)),
        false => String::new(),
    }
}

/// What a turn asked, in words where it is a call.
pub fn asked(turn: &Turn) -> String {
    match &turn.asked {
        Asked::Call(call) => call.words(),
        _ => turn.line.shown(),
    }
}

/// What was answered; the session is followed up to the line before.
pub fn answered(turn: &Turn, followed: &Followed) -> String {
    let is_chart = turn.answers.last().is_some_and(|answer| answer.kind() == CHARTED);
    if is_chart {
        return charted(&turn.answers);
    }
    let said: Vec<String> = turn.answers.iter().map(|answer| said(turn, answer, followed)).collect();
    said.join("; ")
}

fn said(turn: &Turn, answer: &Frame, followed: &Followed) -> String {
    match answer.kind() {
        REFUSED => format!("{}: {}", answer.words(), reason(turn, answer["number"], followed)),
        DROPPED => dropped(turn, answer, followed),
        _ => answer.words(),
    }
}

/// A drop, with the miss ratio of the victim's client and, where that is another, of the new read's client.
fn dropped(turn: &Turn, answer: &Frame, followed: &Followed) -> String {
    let new_client = match &turn.asked {
        Asked::Call(call) => call["client"],
        _ => answer["client"],
    };
    let missed = |client: u64| {
        let mut counts = followed.in_period[client as usize];
        // "the new request already counted in submitted"
        counts.submitted += u64::from(client == new_client);
        let (dropped, of) = counts.missed();
        format!("client {client} missed {dropped} of {of}")
    };
    let said = match answer["victim"] == answer["number"] {
        true => format!("dropped: number {} itself, shift {}", answer["number"], answer["shift"]),
        false => answer.words(),
    };
    let mut ratios = missed(answer["client"]);
    if answer["client"] != new_client {
        ratios = format!("{ratios}, {}", missed(new_client));
    }
    format!("{said}; {ratios}")
}

fn charted(answers: &[Frame]) -> String {
    let segments: Vec<String> = answers.iter().filter(|answer| answer.kind() == SEGMENT).map(Frame::words).collect();
    let count = counted(segments.len() as u64, "segment");
    match segments.len() {
        0 => "nothing waits: 0 segments".into(),
        1..=NAMED => format!("{}: {count}", segments.join(", ")),
        _ => format!("{}, and so on: {count}", segments[..NAMED].join(", ")),
    }
}

/// Why a line was refused.
pub fn reason(turn: &Turn, number: u64, followed: &Followed) -> String {
    let is_open = matches!(&turn.asked, Asked::Call(call) if call.kind() == OPEN);
    match (number, &turn.asked) {
        (1, Asked::NoFrame(reason)) => reason.to_string(),
        (2, _) => "clients are not 1 to 256".into(),
        (3, _) => "the period is not 1 to 4,294,967,295 slots".into(),
        (4, _) if is_open => "the waiting records are not 1 to 2,048".into(),
        (4, _) => "no open was accepted yet".into(),
        (5, _) => "head, hours and tables are not sound".into(),
        (6, _) => format!("the client does not exist; clients are 0 to {}", followed.clients.len().saturating_sub(1)),
        (7, _) => format!("the deadline is not 1 to 65,535 slots ahead; the clock is at {}", grouped(followed.clock)),
        (8, _) => "the client has submitted 268,435,455 reads, and no more can be counted".into(),
        (9, _) => "the last request number, 281,474,976,710,655, has been given".into(),
        (10, _) => format!("the waiting table is full; it has {}", counted(followed.records, "record")),
        (11, _) => "the clock is at its end, 281,474,976,710,655".into(),
        (13, _) => "the slots per hour are not 1 to 360,000".into(),
        (14, _) => "all hours are closed".into(),
        (15, _) => {
            let (clock, next) = (grouped(followed.clock), grouped(followed.hours.next_open(followed.clock)));
            format!("no slot from the clock to the deadline is open; the clock is at {clock}, and the next open slot is {next}")
        }
        _ => "a refusal that this command does not know".into(),
    }
}

#[cfg(test)]
mod tests {
    use super::*;
    use crate::lines::frames::{ANSWERS, SUBMIT};
    use crate::lines::input::Line;
    use crate::lines::marks::Marks;
    use crate::session::hours::Hours;

    /// A submit that was refused.
    fn turn() -> Turn {
        let line = Line { number: 1, text: vec![], is_ended: true };
        Turn { line, asked: Asked::Call(Frame::call(SUBMIT, &[0, 0])), answers: vec![] }
    }

    #[test]
    fn refusals_that_no_short_session_meets_have_their_reasons() {
        let followed = Followed { clock: 1_000, ..Followed::default() };
        for (number, said) in [
            (5, "head, hours and tables are not sound"),
            (7, "the clock is at 1,000"),
            (8, "the client has submitted 268,435,455 reads"),
            (9, "the last request number, 281,474,976,710,655,"),
            (11, "the clock is at its end, 281,474,976,710,655"),
            (13, "the slots per hour are not 1 to 360,000"),
            (14, "all hours are closed"),
            (200, "a refusal that this command does not know"),
        ] {
            assert!(reason(&turn(), number, &followed).contains(said), "{number}");
        }
    }

    #[test]
    fn a_read_without_an_open_slot_is_told_the_next_one() {
        let hours = Hours::new(1_000, Marks::read("0,2", true).unwrap());
        let followed = Followed { clock: 1_500, hours, ..Followed::default() };
        assert!(reason(&turn(), 15, &followed).ends_with("the clock is at 1,500, and the next open slot is 2,000"));
    }

    #[test]
    fn of_many_segments_the_first_are_named() {
        let segment = |left: u64| Frame::read(format!("87{left:016X}{:016X}", left + 1).as_bytes(), &ANSWERS).unwrap();
        let said = |count: u64| charted(&(0..count).map(|place| segment(2 * place)).collect::<Vec<_>>());
        assert_eq!(said(0), "nothing waits: 0 segments");
        assert!(said(12).ends_with("[20, 21], [22, 23]: 12 segments"));
        assert!(said(13).ends_with("[20, 21], [22, 23], and so on: 13 segments"));
    }
}
