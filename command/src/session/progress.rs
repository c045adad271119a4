//! A bar for whoever waits for a long file at a terminal.
use crate::lines::input::Input;
use std::io::{stderr, IsTerminal, Write};
use std::time::{Duration, Instant};

/// Nothing is shown before so long, since most files are read by then.
const PATIENCE: Duration = Duration::from_millis(500);
const BETWEEN: Duration = Duration::from_millis(100);
const WIDTH: usize = 40;

pub struct Progress {
    began: Instant,
    shown: Option<Instant>,
    /// Whether it stands at the terminal now.
    stands: bool,
    is_wanted: bool,
}

impl Progress {
    /// It stands on the standard error, and only where that is a terminal and it is wanted there.
    pub fn new(is_wanted: bool) -> Progress {
        Progress {
            began: Instant::now(),
            shown: None,
            stands: false,
            is_wanted: stderr().is_terminal() && is_wanted,
        }
    }

    pub fn show(&mut self, input: &Input) {
        let (true, Some(size)) = (self.is_wanted, input.size) else { return };
        let is_due = self.shown.map_or(self.began.elapsed() > PATIENCE, |shown| shown.elapsed() > BETWEEN);
        if is_due {
            let done = (WIDTH as u64 * input.read).checked_div(size).unwrap_or_default() as usize;
            let percent = (100 * input.read).checked_div(size).unwrap_or_default();
            let bar = format!("{}{}", "#".repeat(done.min(WIDTH)), ".".repeat(WIDTH.saturating_sub(done)));
            // A terminal that takes no bar is no reason to stop.
            let _ = write!(stderr(), "\r[{bar}] {percent:3} %");
            self.shown = Some(Instant::now());
            self.stands = true;
        }
    }

    /// Takes the bar away, of which nothing is left.
    pub fn hide(&mut self) {
        if std::mem::take(&mut self.stands) {
            let _ = write!(stderr(), "\r{}\r", " ".repeat(WIDTH + 8));
        }
    }
}

impl Drop for Progress {
    fn drop(&mut self) {
        self.hide();
    }
}
