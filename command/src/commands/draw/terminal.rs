//! How wide the terminal is.
use std::env::var;
use std::fs::File;
use std::io::{stdout, IsTerminal};
use std::process::{Command, Stdio};

/// Where there is no terminal.
const USUAL: usize = 80;
/// Charts need so much, and longer lines are not read.
const LEAST: usize = 40;
const MOST: usize = 240;

/// The columns that a terminal has, as it says itself: its rows and columns.
fn asked() -> Option<usize> {
    // It is asked at the terminal itself, since the standard input may be a session.
    let terminal = File::open("/dev/tty").ok()?;
    let asked = Command::new("stty").arg("size").stdin(terminal).stderr(Stdio::null()).output().ok()?;
    let said = String::from_utf8(asked.stdout).ok()?;
    said.split_whitespace().nth(1)?.parse().ok()
}

/// The variable `COLUMNS` says it, or the terminal.
pub fn width() -> usize {
    let named = var("COLUMNS").ok().and_then(|columns| columns.parse().ok());
    let asked = || stdout().is_terminal().then(asked).flatten();
    named.or_else(asked).filter(|&width| width > 0).unwrap_or(USUAL).clamp(LEAST, MOST)
}
