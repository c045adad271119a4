//! `welsbell read FILE`: a recorded session with its answers in words, and a summary behind each session in it.
use crate::failure::Failure;
use crate::session::follow::{Event, Followed};
use crate::said::say;
use crate::session::Turn;
use crate::said::summary::Summary;
use crate::session::watch::{watch, Recorded, Watcher};
use std::io::{stdout, BufWriter, IsTerminal, StdoutLock, Write};

/// How wide the words of most calls are, so that answers stand below each other.
const ASKED: usize = 38;

struct Reader {
    out: BufWriter<StdoutLock<'static>>,
    has_lines: bool,
    has_written: bool,
    is_over: bool,
    summary: Summary,
}

impl Reader {
    /// An empty line between what was written and what comes.
    fn end_paragraph(&mut self) -> Result<(), Failure> {
        if self.has_written {
            writeln!(self.out)?;
        }
        self.has_written = true;
        Ok(())
    }

    fn begin_session(&mut self, turn: &Turn, before: &Followed) -> Result<(), Failure> {
        self.end_summary(before)?;
        if self.has_lines && self.has_written {
            writeln!(self.out)?;
        }
        self.summary = Summary::of_line(turn.line.number);
        Ok(())
    }

    fn end_summary(&mut self, followed: &Followed) -> Result<(), Failure> {
        if !self.summary.is_empty(followed) || self.is_over && !self.has_written {
            self.end_paragraph()?;
            writeln!(self.out, "{}", self.summary.shown(followed))?;
            // It is seen before the bar comes and the next session is waited for.
            self.out.flush()?;
        }
        Ok(())
    }
}

impl Watcher for Reader {
    fn turn(&mut self, turn: &Turn, before: &Followed) -> Result<(), Failure> {
        if turn.is_opened() {
            self.begin_session(turn, before)?;
        }
        if self.has_lines {
            self.has_written = true;
            let (number, asked, answered) = (turn.line.number, say::asked(turn), say::answered(turn, before));
            writeln!(self.out, "{number:>5}  {asked:ASKED$}  {answered}")?;
        }
        Ok(())
    }

    fn event(&mut self, event: &Event, _: &Followed) {
        self.summary.take(event);
    }
}

pub fn read(recorded: &Recorded, has_lines: bool) -> Result<(), Failure> {
    let mut reader = Reader {
        out: BufWriter::new(stdout().lock()),
        has_lines,
        has_written: false,
        is_over: false,
        summary: Summary::default(),
    };
    let has_bar = !has_lines || !stdout().is_terminal();
    let followed = watch(recorded, &mut reader, has_bar)?;
    reader.is_over = true;
    reader.end_summary(&followed)?;
    reader.out.flush()?;
    Ok(())
}
