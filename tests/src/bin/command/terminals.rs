//! The command at a terminal: prompt, help and the end of a dialogue, and the bar for whoever waits for a long file.
use crate::checks::{ended, Checks, Welsbell, VARIABLE};
use crate::terminal::{screen, Terminal};
use std::fs::{read_to_string, write, File};
use std::io::{Error, Result as IoResult};
use std::path::{Path, PathBuf};
use std::process::Command;
use tests::frames::{open, submit, TICK};

const PROMPT: &str = "> ";

/// What Ctrl-D sends.
const END: &str = "\x04";

/// What is typed at the prompt, and what has to stand in what comes up to the next.
const DIALOGUE: [(&str, &[&str]); 8] = [
    ("help\n", &["open clients CLIENTS", "submit CLIENT by DEADLINE", "report CLIENT", "tick", "chart", "`quit`"]),
    ("fly\n", &["expected open, submit, tick, report, chart"]),
    ("submit x by 1\n", &["expected a number for client"]),
    ("\n", &[]),
    ("tick\n", &["refused, 4: no open was accepted yet"]),
    ("open clients 2 period 100 records 8\n", &["opened"]),
    ("submit 1 by 1\n", &["kept: number 1, at place 0, shift 0"]),
    ("03\n", &["slot 0: number 1 of client 1 is served"]),
];

/// Each of these, typed at the prompt, ends the dialogue. In a line that was begun the first Ctrl-D only hands it over.
const ENDS: [&str; 4] = ["quit\n", END, "03\x04\x04", "tick\x04\x04"];

fn is_so(is_so: bool, told: impl FnOnce() -> String) -> IoResult<()> {
    is_so.then_some(()).ok_or_else(|| Error::other(told()))
}

fn hold_dialogue(welsbell: &Welsbell, last: &str) -> IoResult<()> {
    let mut terminal = Terminal::start(welsbell.command("run"), None)?;
    let greeting = terminal.up_to(PROMPT)?;
    is_so(greeting.contains("`help`"), || format!("greeting: {greeting}"))?;
    for (typed, expected) in DIALOGUE {
        terminal.type_in(typed)?;
        let shown = terminal.up_to(PROMPT)?;
        is_so(expected.iter().all(|words| shown.contains(words)), || format!("{typed}: {shown}"))?;
    }
    terminal.type_in(last)?;
    let (status, shown) = terminal.end()?;
    // The shell's prompt is to stand in a line of its own.
    is_so(status.success() && shown.ends_with('\n'), || format!("{status}, {shown}"))
}

/// A file of many sessions, of which each has a summary.
fn long_file(welsbell: &Welsbell) -> IoResult<PathBuf> {
    let path = welsbell.folder.join("sessions.txt");
    let session = [open(2, 9, 9), submit(0, 1), submit(1, 1), TICK.into(), TICK.into()].join("\n") + "\n";
    write(&path, session.repeat(2_000))?;
    Ok(path)
}

/// A session program that takes its time behind a quarter of the file, so that there is something to wait for on any machine.
fn slow_program(welsbell: &Welsbell, file: &Path) -> IoResult<PathBuf> {
    // The command writes an empty line behind each, so that a quarter of the file's lines are this many.
    let lines = read_to_string(file)?.lines().count() / 2;
    let program = welsbell.program.display();
    welsbell.script("slow", &format!("{{ sed --unbuffered {lines}q; sleep 0.6; cat; }} | '{program}'"))
}

/// The bars that were written: the signs in each, and what it says, both in percent.
fn bars(written: &str) -> Vec<(usize, usize)> {
    let bar = |part: &str| {
        let (signs, said) = part.strip_prefix('[')?.strip_suffix(" %")?.split_once(']')?;
        Some((100 * signs.matches('#').count() / signs.len(), said.trim().parse().ok()?))
    };
    written.split('\r').filter_map(bar).collect()
}

/// A long file to wait for, and where its output goes.
struct Waiting {
    file: PathBuf,
    slow: PathBuf,
    written: PathBuf,
}

impl Waiting {
    fn new(welsbell: &Welsbell) -> IoResult<Waiting> {
        let file = long_file(welsbell)?;
        let slow = slow_program(welsbell, &file)?;
        let written = welsbell.folder.join("written.txt");
        Ok(Waiting { file, slow, written })
    }

    fn command(&self, welsbell: &Welsbell, arguments: &str) -> Command {
        let mut command = welsbell.command(arguments);
        command.arg(&self.file).env(VARIABLE, &self.slow);
        command
    }

    /// What goes to a pipe; there is no bar beside it.
    fn piped(&self, welsbell: &Welsbell, arguments: &str) -> IoResult<String> {
        let ended = ended(&mut self.command(welsbell, arguments), "").map_err(Error::other)?;
        ended.hold(0, &["Opened in line "], &[]).map_err(Error::other)?;
        Ok(ended.out)
    }

    /// With the terminal for both outputs, or with a file for the first: what stands there in the end has to be what goes to a pipe.
    fn hold(&self, welsbell: &Welsbell, arguments: &str, has_bar: bool, to_file: bool) -> IoResult<()> {
        let expected = self.piped(welsbell, arguments)?;
        let output = to_file.then(|| File::create(&self.written)).transpose()?;
        let (status, all) = Terminal::start(self.command(welsbell, arguments), output)?.end()?;
        let bars = bars(&all);
        let is_right = bars.iter().all(|(signs, said)| signs.abs_diff(*said) < 3) && bars.iter().any(|(_, said)| (20..40).contains(said));
        is_so(status.success() && !bars.is_empty() == has_bar && is_right == has_bar, || format!("{status}, bars: {bars:?}"))?;
        let screen = screen(&all);
        let came = if to_file { read_to_string(&self.written)? } else { screen.join("\n") };
        let differ = expected.lines().zip(came.lines()).find(|(expected, came)| expected.trim_end() != *came);
        let is_same = expected.lines().count() == came.lines().count() && differ.is_none();
        is_so(is_same, || format!("expected and came {differ:?}"))?;
        is_so(!to_file || screen.concat().is_empty(), || format!("left on the terminal: {screen:?}"))
    }
}

fn hold_bars(welsbell: &Welsbell, checks: &mut Checks) -> IoResult<()> {
    let waiting = Waiting::new(welsbell)?;
    let cases = [("read --summary", true, false), ("read --summary", true, true), ("read", false, false), ("read", true, true), ("draw", true, false)];
    for (arguments, has_bar, to_file) in cases {
        let held = waiting.hold(welsbell, arguments, has_bar, to_file).map_err(|error| error.to_string());
        checks.hold(&format!("welsbell {arguments} at a terminal, its output in a file: {to_file}"), held);
    }
    Ok(())
}

/// Where not both sides are the terminal, there is no prompt; and nobody waits for a short file.
fn hold_without_signs(welsbell: &Welsbell) -> IoResult<()> {
    let written = welsbell.folder.join("answers.txt");
    let mut terminal = Terminal::start(welsbell.command("run"), Some(File::create(&written)?))?;
    terminal.type_in("tick\n")?;
    terminal.type_in(END)?;
    let (status, _) = terminal.end()?;
    let answers = read_to_string(&written)?;
    is_so(status.success() && answers == "refused, 4: no open was accepted yet\n", || format!("{status}, {answers}"))?;
    for lines in ["echo tick | \"$0\" run", "echo 03 > \"$1\"; \"$0\" read --summary \"$1\""] {
        let mut command = Command::new("bash");
        command.args(["-c", lines]).arg(&welsbell.path).arg(&written);
        let (status, shown) = Terminal::start(command, None)?.end()?;
        let is_plain = shown.contains("efused") && !shown.contains(PROMPT) && bars(&shown).is_empty();
        is_so(status.success() && is_plain, || format!("{lines}: {status}, {shown}"))?;
    }
    Ok(())
}

pub fn hold(welsbell: &Welsbell, checks: &mut Checks) {
    checks.hold("neither prompt nor bar", hold_without_signs(welsbell).map_err(|error| error.to_string()));
    for last in ENDS {
        let held = hold_dialogue(welsbell, last).map_err(|error| error.to_string());
        checks.hold(&format!("a dialogue that ends with {last:?}"), held);
    }
    let bars = hold_bars(welsbell, checks);
    checks.hold("bars", bars.map_err(|error| error.to_string()));
}
