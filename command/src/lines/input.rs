//! The lines of an input, however long they are.
use std::collections::VecDeque;
use std::fs::File;
use std::io::{stdin, BufRead, BufReader, IsTerminal, Read, Result};
use std::path::Path;

/// So much of a line is kept. No frame is that long, so that the program refuses what goes on behind this like its beginning; among words
/// only a comment may be that long.
pub const LONGEST: usize = 1_024;

/// So many lines are looked at for one that has something in it.
const LOOKED_AT: usize = 100;

/// So much of a line stands in a message.
const SHOWN: usize = 60;

/// A line without its line feed.
pub struct Line {
    pub number: u64,
    pub text: Vec<u8>,
    /// Whether a line feed ends it: the last line of an input may have none.
    pub is_ended: bool,
}

impl Line {
    fn is_blank(&self) -> bool {
        String::from_utf8_lossy(&self.text).trim().is_empty()
    }

    /// The line as it can stand in a message.
    pub fn shown(&self) -> String {
        let shown = self.text.escape_ascii().to_string();
        match shown.get(..SHOWN) {
            Some(front) if shown.len() > SHOWN => format!("{front}..."),
            _ => shown,
        }
    }
}

pub struct Input {
    reader: BufReader<Box<dyn Read>>,
    /// How many bytes there are, where that is known beforehand.
    pub size: Option<u64>,
    pub read: u64,
    pub is_terminal: bool,
    lines: u64,
    /// Whether the end was met. A terminal would go on behind it, and the session does not.
    is_over: bool,
    /// Lines that were looked at and not taken yet.
    ahead: VecDeque<Line>,
}

impl Input {
    pub fn standard() -> Input {
        Input::of(Box::new(stdin()), None, stdin().is_terminal())
    }

    /// The file of this name; `-` is the standard input.
    pub fn named(name: &Path) -> Result<Input> {
        if name == Path::new("-") {
            return Ok(Input::standard());
        }
        let file = File::open(name)?;
        let about = file.metadata()?;
        let size = about.is_file().then_some(about.len());
        Ok(Input::of(Box::new(file), size, false))
    }

    fn of(reader: Box<dyn Read>, size: Option<u64>, is_terminal: bool) -> Input {
        Input {
            reader: BufReader::new(reader),
            size,
            read: 0,
            is_terminal,
            lines: 0,
            is_over: false,
            ahead: VecDeque::new(),
        }
    }

    /// Whether a whole line is there without waiting for more input.
    pub fn has_line(&self) -> bool {
        !self.ahead.is_empty() || self.reader.buffer().contains(&b'\n')
    }

    /// Fails if nothing can be read.
    pub fn begin(&mut self) -> Result<()> {
        self.reader.fill_buf().map(drop)
    }

    /// The first line that has something in it, without taking it. It is read whole, however a pipe hands it over.
    pub fn first(&mut self) -> Result<Option<&Line>> {
        while self.ahead.len() < LOOKED_AT && self.ahead.iter().all(Line::is_blank) {
            let Some(line) = self.read_line()? else { break };
            self.ahead.push_back(line);
        }
        Ok(self.ahead.iter().find(|line| !line.is_blank()))
    }

    pub fn next(&mut self) -> Result<Option<Line>> {
        match self.ahead.pop_front() {
            Some(line) => Ok(Some(line)),
            None => self.read_line(),
        }
    }

    fn read_line(&mut self) -> Result<Option<Line>> {
        let mut text = vec![];
        if self.is_over {
            return Ok(None);
        }
        loop {
            let part = self.reader.fill_buf()?;
            let feed = part.iter().position(|&byte| byte == b'\n');
            let taken = feed.unwrap_or(part.len());
            text.extend_from_slice(&part[..taken.min(LONGEST - text.len())]);
            self.is_over = part.is_empty();
            let used = taken + usize::from(feed.is_some());
            self.reader.consume(used);
            self.read += used as u64;
            if feed.is_some() || self.is_over {
                return Ok(self.line(text, feed.is_some()));
            }
        }
    }

    fn line(&mut self, text: Vec<u8>, is_ended: bool) -> Option<Line> {
        self.lines += 1;
        (is_ended || !text.is_empty()).then_some(Line {
            number: self.lines,
            text,
            is_ended,
        })
    }
}
