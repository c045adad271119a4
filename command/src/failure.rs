//! How the command ends where it cannot go on.
use crate::lines::input::Line;
use std::fmt::Display;
use std::io::{Error, ErrorKind};

#[derive(Debug)]
pub enum Failure {
    /// The input, or how the command was called: exit code 2.
    Wrong(String),
    /// A file, the session program or the system: exit code 1.
    Failed(String),
    /// Whoever read the output reads no more, as `head` does: no fault.
    Closed,
}

impl From<Error> for Failure {
    fn from(error: Error) -> Failure {
        match error.kind() {
            ErrorKind::BrokenPipe => Failure::Closed,
            _ => Failure::Failed(error.to_string()),
        }
    }
}

/// What is wrong with a line of the input.
pub fn wrong_line(line: &Line, expected: impl Display) -> Failure {
    Failure::Wrong(format!("line {}: `{}`: {expected}", line.number, line.shown()))
}
