//! `welsbell read` and `welsbell frames` on random sessions, beside the model.
use crate::checks::{numbers, option_for, Checks, Welsbell};
use crate::list::{turns, List, Turn};
use crate::reasons::{true_reason, REASONS};
use std::collections::BTreeMap;
use std::iter::once;
use tests::model::calls::{CHART, CLOSED, DROPPED, KEPT, REFUSED};
use tests::model::hours::PER_HOUR;
use tests::model::session::SEGMENT;
use tests::model::tables::{AHEAD, CLIENTS, PERIODS, RECORDS};
use tests::random::session::session;
use tests::random::Random;

const SESSIONS: u64 = 400;

/// The session of this number has a large table that becomes full.
const LARGE: u64 = 200;

/// So many segments of a chart are named at most.
const NAMED: usize = 12;

const OPEN: u64 = 0x01;
const SUBMIT: u64 = 0x02;

/// What has to come up, besides each reason for a line that is no frame.
const WANTED: [&str; 24] = [
    "refusal 1",
    "refusal 2",
    "refusal 3",
    "refusal 4",
    "refusal 6",
    "refusal 7",
    "refusal 10",
    "refusal 13",
    "refusal 14",
    "refusal 15",
    "closed slot",
    "stretch over closed slots",
    "read kept with others behind it",
    "read dropped itself",
    "read dropped itself with others behind it",
    "read dropped for another",
    "drop in a period that began with reads waiting",
    "chart without a segment",
    "chart with more segments than are named",
    "session with several opens",
    "session with lines before an open",
    "wait of several slots",
    "stretch of several slots with drops",
    "client that submitted nothing",
];

/// How often each thing came up.
#[derive(Default)]
struct Seen(BTreeMap<String, u64>);

impl Seen {
    fn note(&mut self, what: &str, is_seen: bool) {
        *self.0.entry(what.into()).or_default() += u64::from(is_seen);
    }

    fn missing(&self) -> Vec<&'static str> {
        let wanted = WANTED.into_iter().chain(REASONS.map(|(words, _)| words));
        wanted.filter(|what| self.0.get(*what).copied().unwrap_or_default() == 0).collect()
    }
}

/// The numbers in the words of a turn's answers, with the turns of its list before it.
fn said(turn: &Turn, before: &[Turn]) -> Vec<u64> {
    let answer = &turn.answers[0];
    match (&turn.frame[..], &answer[..]) {
        (_, [CHART | SEGMENT, ..]) => charted(&turn.answers),
        (frame, &[REFUSED, number]) => once(number).chain(refused(frame, number, before)).collect(),
        (&[SUBMIT, client, _], &[DROPPED, number, victim, of, shift]) => dropped([number, victim, of, shift], client, &List::of(before)),
        _ => answer[1..].to_vec(),
    }
}

/// The segments' ends, and how many segments there are.
fn charted(answers: &[Vec<u64>]) -> Vec<u64> {
    let named = answers.iter().filter(|answer| answer[0] == SEGMENT).take(NAMED);
    named.flat_map(|segment| segment[1..].to_vec()).chain([answers.len() as u64 - 1]).collect()
}

/// What the reason for a refusal names: the bounds of document 01, and where the queue stood.
fn refused(frame: &[u64], number: u64, before: &[Turn]) -> Vec<u64> {
    match (number, frame) {
        (2, _) => vec![*CLIENTS.start(), *CLIENTS.end()],
        (3, _) => vec![*PERIODS.start(), *PERIODS.end()],
        (13, _) => vec![*PER_HOUR.start(), *PER_HOUR.end()],
        (4, [OPEN, ..]) => vec![*RECORDS.start() as u64, *RECORDS.end() as u64],
        (6, _) => vec![0, List::of(before).clients - 1],
        (7, _) => vec![*AHEAD.start() as u64, *AHEAD.end() as u64, List::of(before).clock()],
        (10, _) => vec![List::of(before).records],
        (15, _) => [List::of(before).clock()].into_iter().chain(List::of(before).next_open()).collect(),
        _ => vec![],
    }
}

/// The answer's numbers, of which a read that is dropped itself needs only its own and the shift, and then drops and submits of the
/// victim's client and of the new read's, where that is another; "the new request already counted in submitted".
fn dropped([number, victim, of, shift]: [u64; 4], client: u64, before: &List) -> Vec<u64> {
    let answer = if victim == number { vec![number, shift] } else { vec![number, shift, victim, of] };
    let missed = |client: u64, new: u64| {
        let [dropped, submitted] = before.missed(client);
        vec![client, dropped, submitted + new]
    };
    let ratios = if of == client { missed(of, 1) } else { [missed(of, 0), missed(client, 1)].concat() };
    [answer, ratios].concat()
}

/// A line of `welsbell read`, with the turns of its list before it. The words of the call, if the line is a frame.
fn hold_turn(shown: &str, turn: &Turn, before: &[Turn], seen: &mut Seen) -> Result<Option<String>, String> {
    let (number, rest) = shown.trim_start().split_once("  ").ok_or("there is no number")?;
    let is_frame = !turn.frame.is_empty();
    let parts = if is_frame { rest.split_once("  ") } else { rest.rsplit_once("  refused, ") };
    let (asked, answered) = parts.ok_or("there is no answer")?;
    let expected = said(turn, before);
    let came = numbers(answered);
    // The reason for a line that is no frame has other numbers behind the refusal's.
    let is_same = if is_frame { came == expected } else { came.first() == Some(&1) && expected == [1] };
    if number != turn.number.to_string() || !is_same {
        return Err(format!("expected {} and {expected:?}, came {number} and {came:?}", turn.number));
    }
    note(turn, before, seen);
    if is_frame {
        return Ok(Some(asked.into()));
    }
    let line = turn.line.escape_ascii().to_string();
    if !line.starts_with(asked.trim_end().trim_end_matches("...")) {
        return Err(format!("expected {line}, came {asked}"));
    }
    let (_, reason) = answered.split_once(": ").ok_or("there is no reason")?;
    seen.note(true_reason(reason, turn)?, true);
    Ok(None)
}

fn note(turn: &Turn, before: &[Turn], seen: &mut Seen) {
    let segments = turn.answers.iter().filter(|answer| answer[0] == SEGMENT).count();
    match turn.answers[0][..] {
        [REFUSED, number] => seen.note(&format!("refusal {number}"), true),
        [KEPT, _, _, shift] => seen.note("read kept with others behind it", shift > 0),
        [DROPPED, number, victim, of, shift] => {
            seen.note("read dropped itself", victim == number);
            seen.note("read dropped itself with others behind it", victim == number && shift > 0);
            seen.note("read dropped for another", victim != number);
            seen.note("drop in a period that began with reads waiting", List::of(before).has_carried(of));
        }
        [CLOSED, _] => seen.note("closed slot", true),
        [CHART, _] => seen.note("chart without a segment", true),
        _ => seen.note("chart with more segments than are named", segments > NAMED),
    }
}

/// A line of a summary.
fn hold_summary(shown: &str, (words, expected): &(&'static str, Vec<u64>)) -> Result<(), String> {
    // The numbers may stand between the words.
    let plain: Vec<&str> = shown.split_whitespace().filter(|word| !word.starts_with(|c: char| c.is_ascii_digit())).collect();
    let came = numbers(shown);
    if plain.join(" ").contains(words) && came == *expected {
        return Ok(());
    }
    Err(format!("expected `{words}` with {expected:?}, came {came:?}"))
}

/// The lines of an output that are not empty, one by one.
struct Shown<'a> {
    lines: Vec<&'a str>,
    next: usize,
}

impl<'a> Shown<'a> {
    fn of(output: &'a str) -> Shown<'a> {
        let lines = output.lines().filter(|line| !line.is_empty()).collect();
        Shown { lines, next: 0 }
    }

    fn next(&mut self) -> &'a str {
        self.next += 1;
        self.lines.get(self.next - 1).copied().unwrap_or_default()
    }

    /// What is not as it should be, with the line that was taken last.
    fn told(&self, fault: String) -> String {
        let last = self.next.checked_sub(1).and_then(|last| self.lines.get(last));
        format!("{}\n{fault}", last.copied().unwrap_or("nothing more"))
    }

    fn end(&self) -> Result<(), String> {
        let more = self.lines.get(self.next);
        more.map_or(Ok(()), |line| Err(format!("{line}\ncame behind the end")))
    }
}

/// The turns of a list as `read` shows them. The words of the calls.
fn hold_turns(shown: &mut Shown, list: &[Turn], seen: &mut Seen) -> Result<Vec<String>, String> {
    let mut calls = vec![];
    for (place, turn) in list.iter().enumerate() {
        let held = hold_turn(shown.next(), turn, &list[..place], seen);
        calls.extend(held.map_err(|fault| shown.told(fault))?);
    }
    Ok(calls)
}

fn hold_summaries(shown: &mut Shown, list: &List) -> Result<(), String> {
    let mut summary = list.summary().into_iter();
    summary.try_for_each(|expected| hold_summary(shown.next(), &expected).map_err(|fault| shown.told(fault)))
}

/// What the sessions came to together.
#[derive(Default)]
struct Held {
    seen: Seen,
    lines: usize,
    summaries: usize,
    calls: usize,
}

impl Held {
    fn session(&mut self, welsbell: &Welsbell, input: &[u8]) -> Result<(), String> {
        let turns = turns(input);
        let lists: Vec<&[Turn]> = turns.chunk_by(|_, next| !next.is_opened()).collect();
        let option = option_for(input);
        let read = welsbell.ended(&format!("read {option} -"), input)?;
        let summary = welsbell.ended(&format!("read {option} --summary -"), input)?;
        let (mut lines, mut summaries) = (Shown::of(&read.out), Shown::of(&summary.out));
        let mut calls = vec![];
        for turns in &lists {
            let list = List::of(turns);
            calls.extend(hold_turns(&mut lines, turns, &mut self.seen)?);
            hold_summaries(&mut lines, &list)?;
            hold_summaries(&mut summaries, &list)?;
            self.note(&list);
        }
        lines.end()?;
        summaries.end()?;
        for ended in [read, summary] {
            let is_good = ended.code == Some(0) && ended.err.is_empty();
            is_good.then_some(()).ok_or_else(|| format!("code {:?}, {}", ended.code, ended.err))?;
            ended.hold_plain()?;
        }
        self.seen.note("session with several opens", lists.iter().filter(|list| list[0].is_opened()).count() > 1);
        self.seen.note("session with lines before an open", lists.first().is_some_and(|list| !list[0].is_opened()));
        self.lines += turns.len();
        self.calls += calls.len();
        hold_frames(welsbell, &turns, &calls)
    }

    fn note(&mut self, list: &List) {
        self.summaries += 1;
        self.seen.note("wait of several slots", list.longest_wait().is_some_and(|[wait, ..]| wait > 1));
        let is_busy = list.busiest_stretch().is_some_and(|[first, last, _, dropped]| last > first && dropped > 0);
        self.seen.note("stretch of several slots with drops", is_busy);
        let spans = list.busiest_stretch().is_some_and(|[first, last, length, _]| last - first + 1 > length);
        self.seen.note("stretch over closed slots", spans);
        self.seen.note("client that submitted nothing", list.has_silent());
    }
}

/// The words that `read` shows of frames are, to `welsbell frames`, these frames.
fn hold_frames(welsbell: &Welsbell, turns: &[Turn], calls: &[String]) -> Result<(), String> {
    let came = welsbell.ended("frames -", calls.join("\n"))?;
    let expected = turns.iter().filter(|turn| !turn.frame.is_empty()).map(|turn| [turn.line, b"\n"].concat());
    let expected: Vec<Vec<u8>> = expected.collect();
    let is_same = came.code == Some(0) && came.err.is_empty() && came.out.as_bytes() == expected.concat();
    is_same.then_some(()).ok_or_else(|| format!("frames: {calls:?} became {came:?}"))
}

pub fn hold(welsbell: &Welsbell, seed: u64, checks: &mut Checks) {
    let mut held = Held::default();
    for number in 0..SESSIONS {
        let input = session(Random::of_part(seed, number), number == LARGE);
        let is_held = held.session(welsbell, &input);
        checks.hold(&format!("seed {seed}, session {number}"), is_held);
    }
    let missing = held.seen.missing();
    checks.hold("random sessions", if missing.is_empty() { Ok(()) } else { Err(format!("there was no {}", missing.join(", "))) });
    let Held { lines, summaries, calls, .. } = held;
    checks.tell(format!(
        "{SESSIONS} sessions, {lines} lines, {summaries} summaries, {calls} frames to words and back: all as the model says"
    ));
}
