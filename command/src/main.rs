//! `welsbell`, the command for people: sessions in words, over the proved session program.
mod commands;
mod drawing;
mod failure;
mod lines;
mod numbers;
mod said;
mod session;

use commands::{compare, draw, frames, read, run};
use failure::Failure;
use session::watch::Recorded;
use session::Language;
use std::borrow::Cow;
use std::env::args_os;
use std::ffi::OsString;
use std::path::Path;
use std::io::{stderr, stdout, Write};
use std::process::exit;

const USAGE: &str = "\
welsbell run                 a session in words, at a terminal or from a pipe; `help` in it tells what to write
welsbell read FILE           a recorded session with its answers in words, and a summary
welsbell read --summary FILE the summary alone
welsbell draw FILE           a recorded session drawn: who was served when, drops, the occupancy charts
welsbell draw FILE PAGE.html the same, and a page for a browser, with the miss ratios
welsbell frames FILE         words to frames, for the session program
welsbell compare             the paper's experiments 1 and 2 on the proved program, beside simulated policies, in a table
welsbell compare PAGE.html   the same with the paper's figures, as a page
welsbell compare PICTURE.svg the figure of experiment 2 alone
FILE is in words or in frames, as its first line is; - is the standard input. With --frames every line is taken for a frame.";

fn command(arguments: &[OsString]) -> Result<(), Failure> {
    let shown: Vec<Cow<str>> = arguments.iter().map(|argument| argument.to_string_lossy()).collect();
    let options: Vec<&str> = shown.iter().map(Cow::as_ref).filter(|argument| argument.starts_with("--")).collect();
    let others = arguments.iter().zip(&shown).filter(|(_, shown)| !shown.starts_with("--"));
    // A name need not be text, and a command is.
    let (files, words): (Vec<&Path>, Vec<&str>) = others.map(|(argument, shown)| (Path::new(argument), shown.as_ref())).unzip();
    let has = |option| options.contains(&option);
    let are_known = |known: &[&str]| options.iter().all(|option| known.contains(option));
    let recorded = || Recorded {
        file: files[1],
        language: has("--frames").then_some(Language::Frames),
    };
    match words[..] {
        _ if has("--help") => usage(),
        ["read", _] if are_known(&["--summary", "--frames"]) => read::read(&recorded(), !has("--summary")),
        ["draw", _] if are_known(&["--frames"]) => draw::draw(&recorded(), None),
        ["draw", _, _] if are_known(&["--frames"]) => draw::draw(&recorded(), Some(files[2])),
        ["run"] if options.is_empty() => run::run(),
        ["frames", _] if options.is_empty() => frames::frames(files[1]),
        ["compare"] if options.is_empty() => compare::print(),
        ["compare", _] if options.is_empty() => compare::draw(files[1]),
        ["help" | "-h"] => usage(),
        [] if options == ["--version"] => version(),
        [] if options.is_empty() => Err(Failure::Wrong(format!("welsbell has to be told what to do:\n{USAGE}"))),
        _ => Err(Failure::Wrong(format!("`welsbell {}` is not understood:\n{USAGE}", shown.join(" ")))),
    }
}

fn version() -> Result<(), Failure> {
    writeln!(stdout(), "welsbell {}", env!("CARGO_PKG_VERSION"))?;
    Ok(())
}

fn usage() -> Result<(), Failure> {
    writeln!(stdout(), "{USAGE}")?;
    Ok(())
}

fn main() {
    let arguments: Vec<OsString> = args_os().skip(1).collect();
    let (message, code) = match command(&arguments) {
        Ok(()) | Err(Failure::Closed) => return,
        Err(Failure::Failed(message)) => (message, 1),
        Err(Failure::Wrong(message)) => (message, 2),
    };
    // Where nobody can be told, the code says it.
    let _ = writeln!(stderr(), "welsbell: {message}");
    exit(code);
}
