//! A session as it goes: lines in words or frames, each with the answers of the proved program to it.
pub mod follow;
pub mod hours;
pub mod program;
pub mod progress;
pub mod watch;

use crate::failure::{wrong_line, Failure};
use crate::lines::frames::{Frame, NoFrame, CALLS, OPENED};
use crate::lines::input::{Input, Line, LONGEST};
use crate::numbers::grouped;
use crate::session::program::{length_asked, Program, LEAST_PIPE};
use crate::lines::words::{are_words, call_of};
use std::collections::VecDeque;

/// Some editors write it before the first line of a text.
const BYTE_ORDER_MARK: char = '\u{feff}';

/// In what an input is written.
#[derive(Clone, Copy, PartialEq, Eq)]
pub enum Language {
    /// A person's: words, among which frames, empty lines and comments may stand.
    Words,
    /// The session program's: every line is passed on as it is, and what is no frame is refused.
    Frames,
}

impl Language {
    /// By the first line that has something in it.
    pub fn of(input: &mut Input) -> Result<Language, Failure> {
        let Some(line) = input.first()? else { return Ok(Language::Frames) };
        match String::from_utf8_lossy(&line.text).trim_start_matches(BYTE_ORDER_MARK).trim() {
            text if are_words(text) => Ok(Language::Words),
            text if looks_like_a_frame(text) => Ok(Language::Frames),
            _ => Err(wrong_line(line, "expected words or a frame; with --frames every line is taken for a frame")),
        }
    }
}

/// What a line asks.
pub enum Asked {
    Call(Frame),
    /// A line that is passed on and is no frame, and why it is none.
    NoFrame(NoFrame),
    /// An empty line or a comment among words.
    Nothing,
    Help,
    End,
    /// Among words, what is neither words nor a frame; and what was expected.
    Wrong(String),
}

/// A line, what it asks, and the answers to it, of which there are none where nothing is asked.
pub struct Turn {
    pub line: Line,
    pub asked: Asked,
    pub answers: Vec<Frame>,
}

impl Turn {
    /// Whether it is an open that was accepted.
    pub fn is_opened(&self) -> bool {
        self.answers.iter().any(|answer| answer.kind() == OPENED)
    }

    /// Whether the input ends in the middle of it, so that it is no frame.
    fn is_cut(&self) -> bool {
        matches!(self.asked, Asked::NoFrame(_)) && !self.line.is_ended
    }

    /// The line that is passed on to the program, if one is.
    fn passed_on(&self) -> Option<Vec<u8>> {
        match &self.asked {
            Asked::Call(call) => Some(call.line().into_bytes()),
            Asked::NoFrame(_) => Some(self.line.text.clone()),
            _ => None,
        }
    }
}

/// Hexadecimal digits alone, in whatever case. Every frame has a decimal one, and no word has.
fn looks_like_a_frame(line: &str) -> bool {
    line.bytes().all(|byte| byte.is_ascii_hexdigit()) && line.bytes().any(|byte| byte.is_ascii_digit())
}

/// What a line asks in this language.
pub fn asked_of(line: &Line, language: Language) -> Asked {
    let text = String::from_utf8_lossy(&line.text);
    let words = text.trim_start_matches(BYTE_ORDER_MARK).trim();
    if language == Language::Frames || looks_like_a_frame(words) {
        return match Frame::read(&line.text, &CALLS) {
            _ if !line.is_ended => Asked::NoFrame(NoFrame::NoLineFeed),
            Ok(call) => Asked::Call(call),
            Err(reason) => Asked::NoFrame(reason),
        };
    }
    match words.to_lowercase().as_str() {
        comment if comment.starts_with('#') => Asked::Nothing,
        // What is not kept of it may say something else.
        _ if line.text.len() >= LONGEST => Asked::Wrong(format!("expected a line of less than {} characters", grouped(LONGEST as u64))),
        "" => Asked::Nothing,
        "help" => Asked::Help,
        "quit" | "exit" => Asked::End,
        _ => call_of(words).map_or_else(Asked::Wrong, Asked::Call),
    }
}

/// The session over an input.
pub struct Session {
    pub input: Input,
    language: Language,
    program: Option<Program>,
    /// Turns of which the program was asked and whose answers were not taken yet.
    ahead: VecDeque<Turn>,
}

impl Session {
    pub fn start(input: Input, language: Language) -> Result<Session, Failure> {
        Ok(Session {
            input,
            language,
            program: Some(Program::start()?),
            ahead: VecDeque::new(),
        })
    }

    /// The next turn; none where the input has ended. Of several turns that are asked together only one has its answers at a time, since
    /// those to a chart may be many.
    pub fn next(&mut self) -> Result<Option<Turn>, Failure> {
        if self.ahead.is_empty() {
            self.ask()?;
        }
        let Some(mut turn) = self.ahead.pop_front() else { return Ok(None) };
        turn.answers = self.answers(&turn)?;
        Ok(Some(turn))
    }

    /// Asks the lines that are there, as long as there is room for one more, however long it is.
    fn ask(&mut self) -> Result<(), Failure> {
        let mut lines = vec![];
        let mut length = 0;
        while self.ahead.is_empty() || (self.input.has_line() && length + length_asked(LONGEST) <= LEAST_PIPE) {
            let Some(line) = self.input.next()? else { break };
            let asked = asked_of(&line, self.language);
            let turn = Turn { line, asked, answers: vec![] };
            let passed_on = turn.passed_on().filter(|_| !turn.is_cut());
            length += passed_on.as_ref().map_or(0, |line| length_asked(line.len()));
            lines.extend(passed_on);
            self.ahead.push_back(turn);
        }
        self.program.as_mut().map_or(Ok(()), |program| program.ask(&lines))
    }

    fn answers(&mut self, turn: &Turn) -> Result<Vec<Frame>, Failure> {
        if turn.is_cut() {
            return self.program.take().map_or(Ok(vec![]), |program| program.ask_last(&turn.line.text));
        }
        match (&mut self.program, &turn.asked) {
            (Some(program), Asked::Call(_) | Asked::NoFrame(_)) => program.answers(),
            _ => Ok(vec![]),
        }
    }
}
