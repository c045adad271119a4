//! The proved session program, asked line by line. It alone decides: what the command says of a queue are its answers.
use crate::failure::Failure;
use crate::lines::frames::{Frame, ANSWERS, REFUSED};
use std::env::{current_exe, var_os};
use std::io::{BufRead, BufReader, Read, Write};
use std::path::{Path, PathBuf};
use std::process::{Child, ChildStdin, ChildStdout, Command, Stdio};

/// Names the session program, where it is not at its usual place.
const VARIABLE: &str = "WELSBELL_PROGRAM";
const NAME: &str = "session_main";

/// An empty line is refused and changes nothing, so that one behind each line shows where the answers to that line end: the first
/// answer of a line is its own, and the next refusal 1 is the empty line's.
const MARKER: &[u8] = b"\n";
const MARKED: u64 = 1;

/// A pipe holds at least so many bytes. No more is asked at a time, so that neither side waits for the other.
pub const LEAST_PIPE: usize = 4_096;

/// How much of a pipe a line of this length takes, with its line feed and the marker.
pub fn length_asked(line: usize) -> usize {
    line + 1 + MARKER.len()
}

pub struct Program {
    child: Child,
    input: ChildStdin,
    output: BufReader<ChildStdout>,
}

/// Where the session program is: where the variable says, beside this command, or where the prover builds it.
pub fn find() -> Result<PathBuf, Failure> {
    if let Some(named) = var_os(VARIABLE) {
        return Ok(named.into());
    }
    let command = current_exe()?.canonicalize()?;
    let folder = command.parent().unwrap_or(Path::new("."));
    let places = [folder.join(NAME), folder.join("../../target/bin").join(NAME)];
    places.into_iter().find(|place| place.is_file()).ok_or_else(|| missing("the session program is not there"))
}

/// What happened, and what to do.
fn missing(what: &str) -> Failure {
    Failure::Failed(format!("{what}: `package/build` builds it, or {VARIABLE} names it"))
}

impl Program {
    pub fn start() -> Result<Program, Failure> {
        let path = find()?;
        let started = Command::new(&path).stdin(Stdio::piped()).stdout(Stdio::piped()).spawn();
        let mut child = started.map_err(|error| missing(&format!("the session program, {}: {error}", path.display())))?;
        let (Some(input), Some(output)) = (child.stdin.take(), child.stdout.take()) else {
            return Err(Failure::Failed("the session program has no pipes".into()));
        };
        Ok(Program {
            child,
            input,
            output: BufReader::new(output),
        })
    }

    /// Asks some lines, which are given without line feeds. All are written before an answer is read, so they have to fit in a pipe
    /// together: `LEAST_PIPE`. No more may be asked before the answers to each were taken.
    pub fn ask(&mut self, lines: &[Vec<u8>]) -> Result<(), Failure> {
        let mut text = vec![];
        for line in lines {
            text.extend_from_slice(line);
            text.push(b'\n');
            text.extend_from_slice(MARKER);
        }
        self.write(&text)
    }

    /// The answers to the first of the lines asked whose answers were not taken yet.
    pub fn answers(&mut self) -> Result<Vec<Frame>, Failure> {
        let mut answers = vec![self.answer()?];
        loop {
            let answer = self.answer()?;
            if answer.kind() == REFUSED && answer["number"] == MARKED {
                return Ok(answers);
            }
            answers.push(answer);
        }
    }

    /// The answers to a line behind which the input ends without a line feed, and the end.
    pub fn ask_last(mut self, line: &[u8]) -> Result<Vec<Frame>, Failure> {
        self.write(line)?;
        drop(self.input);
        let mut rest = String::new();
        self.output.read_to_string(&mut rest)?;
        self.child.wait()?;
        rest.lines().map(|line| answer_of(line.as_bytes())).collect()
    }

    fn write(&mut self, text: &[u8]) -> Result<(), Failure> {
        let written = self.input.write_all(text).and_then(|()| self.input.flush());
        written.map_err(|error| Failure::Failed(format!("the session program takes no more: {error}")))
    }

    fn answer(&mut self) -> Result<Frame, Failure> {
        let mut line = vec![];
        self.output.read_until(b'\n', &mut line)?;
        match line.strip_suffix(b"\n") {
            Some(line) => answer_of(line),
            None => Err(Failure::Failed("the session program ended before it had answered".into())),
        }
    }
}

fn answer_of(line: &[u8]) -> Result<Frame, Failure> {
    let answer = Frame::read(line, &ANSWERS);
    answer.map_err(|reason| Failure::Failed(format!("the session program answered {}: {reason}", line.escape_ascii())))
}
