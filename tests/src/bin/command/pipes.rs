//! The command in a pipe: good, bad and empty input, wrong arguments, files and programs that are not there, readers that go away.
use crate::checks::{ended, Checks, Ended, Welsbell, VARIABLE};
use std::fs::{copy, create_dir_all, read_to_string, write, File, OpenOptions};
use std::io::{pipe, BufRead, BufReader, Error, Result as IoResult, Write};
use std::os::unix::fs::symlink;
use std::path::Path;
use std::process::{Command, Stdio};
use std::sync::mpsc::channel;
use std::thread::spawn;
use std::time::Duration;
use tests::frames;

/// Arguments, input, exit code, and what stands in the standard output and the standard error; where there is nothing, nothing stands.
type Case = (&'static str, &'static [u8], i32, &'static [&'static str], &'static [&'static str]);

const USAGE: &[&str] = &["welsbell run", "welsbell read FILE", "welsbell frames FILE"];

const EMPTY: &[Case] = &[
    ("run", b"", 0, &[], &[]),
    ("read -", b"", 0, &["No open was accepted."], &[]),
    ("read --summary -", b"", 0, &["No open was accepted."], &[]),
    ("draw -", b"", 0, &["No open was accepted"], &[]),
    ("frames -", b"", 0, &[], &[]),
    ("run", b"\n \n# a comment\n", 0, &[], &[]),
    ("frames -", b"\n \n# a comment\n", 0, &[], &[]),
    ("run", b"Exit\nfly\n", 0, &[], &[]),
];

const GOOD: &[Case] = &[
    ("help", b"", 0, USAGE, &[]),
    ("-h", b"", 0, USAGE, &[]),
    ("--help", b"", 0, USAGE, &[]),
    ("read --help", b"", 0, USAGE, &[]),
    ("--version", b"", 0, &["welsbell 1."], &[]),
    ("run", b"help\n", 0, &["open clients CLIENTS period PERIOD records RECORDS", "submit CLIENT by DEADLINE"], &[]),
    ("run", b"help\n", 0, &["\n  tick\n", "\n  report CLIENT\n", "\n  chart\n"], &[]),
    ("run", b"open clients 1 period 1 records 1\r\nTICK\r\n", 0, &["opened\nslot 0: "], &[]),
    ("run", b"tick\nquit\nfly\n", 0, &["refused, 4: "], &[]),
    ("run", b"# a comment\n\n03\nTick\n03", 0, &["refused, 4: no open was accepted yet\nrefused, 4: ", "\nrefused, 1: the last line"], &[]),
    ("frames -", b"OPEN Clients 10 period 1,000 records 65535\n04FFFF\ntick", 0, &["01000A000003E8FFFF00000001FFFFFFFFFFFFFFFFFFFFFFFFFFFFFFFFFFFFFFFFFF\n04FFFF\n03\n"], &[]),
    ("frames -", b"open clients 1 period 100 records 8 Hour 2 OPEN 0,2", 0, &["01000100000064000800000002A00000000000000000000000000000000000000000\n"], &[]),
    ("frames -", b"open clients 1 period 100 records 8 hour 360 closed 1-166, 167\n", 0, &["0100010000006400080000016880000000000000000000000000000000000000000"], &[]),
    ("run", b"open clients 1 period 1 records 1 hour 0\nopen clients 1 period 1 records 1 hour 1 closed 0-167\n", 0, &["refused, 13: the slots per hour", "\nrefused, 14: all hours are closed\n"], &[]),
    ("run", b"open clients 1 period 1 records 1 hour 2 open 1\nsubmit 0 by 2\ntick\n", 0, &["refused, 15: no slot from the clock to the deadline is open; the clock is at 0, and the next open slot is 2\nslot 0: closed\n"], &[]),
    ("read -", b"# a comment\ntick", 0, &["    2  tick", "refused, 4: ", "Refused: 1 line"], &[]),
    ("read -", b"\n \n\nopen clients 1 period 1 records 1\n", 0, &["    4  open clients 1 period 1 records 1", "  opened\n"], &[]),
    ("read -", b"\xEF\xBB\xBFopen clients 1 period 1 records 1\n", 0, &["  opened\n"], &[]),
    ("draw -", b"open clients 1 period 1 records 1\ntick\n", 0, &["Session 1. Opened in line 1", "1 slot passed, 1 idle"], &[]),
    ("draw --frames -", b"tick\n03\n", 0, &["No open was accepted"], &[]),
    ("compare", b"", 0, &["Experiment 1: 2 clients", "Experiment 2: 10 clients", "the queue (proved program)", "(simulated)"], &[]),
    ("read --frames --summary -", b"tick\n03\n", 0, &["Refused: 2 lines (number 1: 1, number 4: 1)"], &[]),
    ("read -", b"\n\n", 0, &["Refused: 2 lines (number 1: 2)"], &[]),
    ("read -", b"TICK\n", 0, &["    1  tick", "refused, 4: "], &[]),
    ("read --summary -", b"01000100000001000100000001FFFFFFFFFFFFFFFFFFFFFFFFFFFFFFFFFFFFFFFFFF\n01000100000001000100000001FFFFFFFFFFFFFFFFFFFFFFFFFFFFFFFFFFFFFFFFFF\n", 0, &["Refused: nothing.\n\nOpened in line 2: "], &[]),
    ("read -", b"01000100000001000100000001FFFFFFFFFFFFFFFFFFFFFFFFFFFFFFFFFFFFFFFFFF\n01000100000001000100000001FFFFFFFFFFFFFFFFFFFFFFFFFFFFFFFFFFFFFFFFFF\n", 0, &["opened\n\nOpened in line 1: ", "Refused: nothing.\n\n    2  open"], &[]),
    ("run", b"HELP\nQuit\nfly\n", 0, &["submit CLIENT by DEADLINE"], &[]),
    ("draw -", b"03\n", 0, &["No open was accepted, so there is nothing to draw. Refused: 1 line.\n"], &[]),
    ("draw - /nowhere/x.HTM", b"03\n", 0, &["/nowhere/x.HTM is not written."], &[]),
    ("draw -", b"03\n01000100000001000100000001FFFFFFFFFFFFFFFFFFFFFFFFFFFFFFFFFFFFFFFFFF\n03\nFF\n", 0, &["Refused before the first open: 1 line.\n\nSession 1. Opened in line 2: ", "1 slot passed, 1 idle; 0 reads: ", " Refused: 1 line.\n"], &[]),
    ("draw --frames -", b"tick\n01000100000001000100000001FFFFFFFFFFFFFFFFFFFFFFFFFFFFFFFFFFFFFFFFFF\n", 0, &["Refused before the first open: 1 line.\n\nSession 1. Opened in line 2: "], &[]),
    ("run", b"020000000000000000000a\n", 0, &["refused, 1: the digits A to F have to be upper case"], &[]),
];

const BAD: &[Case] = &[
    ("read -", b"# a comment\nhelp\ntick\n", 2, &[], &["line 2: `help`: expected a call"]),
    ("run", b"tick\nfly 3\n", 2, &["refused, 4"], &["line 2: `fly 3`: expected open, submit, tick, report, chart or a frame"]),
    ("read -", b"tick\nfly 3\n", 2, &["refused, 4"], &["line 2: `fly 3`: expected open, submit, tick, report, chart or a frame"]),
    ("read --summary -", b"tick\n\nfly 3\n", 2, &[], &["line 3: `fly 3`: expected open"]),
    ("frames -", b"tick\nfly 3\n", 2, &["03\n"], &["line 2: `fly 3`: expected open"]),
    ("run", b"submit 0 at 1\n", 2, &[], &["line 1: `submit 0 at 1`: expected `submit CLIENT by DEADLINE`"]),
    ("run", b"open clients 1 period 1 records 1 hour 2 open 168\n", 2, &[], &["line 1: ", "expected hours of the week, 0 to 167", "`168` is none"]),
    ("run", b"open clients 1 period 1 records 1 hour 2 closed 7-6\n", 2, &[], &["line 1: ", "not `7-6`"]),
    ("run", b"open clients 1 period 1 records 1 hour\n", 2, &[], &["line 1: ", "expected `open clients CLIENTS period PERIOD records RECORDS`", "`hour SLOTS closed HOURS`"]),
    ("run", b"submit 0\n", 2, &[], &["line 1: `submit 0`: expected `submit CLIENT by DEADLINE`"]),
    ("run", b"report -1\n", 2, &[], &["line 1: `report -1`: expected a number for client"]),
    ("run", b"report 65536\n", 2, &[], &["line 1: `report 65536`: 65536 does not fit in client"]),
    ("run", b"submit 0 by 18446744073709551616\n", 2, &[], &["line 1", "does not fit in deadline"]),
    ("run", b"\xFF\xFE\n", 2, &[], &[r"line 1: `\xff\xfe`: expected open"]),
    ("run", b"report \x1b[31m\n", 2, &[], &[r"line 1: `report \x1b[31m`: expected a number for client"]),
    ("frames -", b"03", 2, &[], &["line 1: `03`: expected words or a frame: the last line does not end with a line feed"]),
    ("frames -", b"030\n", 2, &[], &["line 1: `030`: expected words or a frame: digits come in pairs"]),
    ("frames -", b"help\n", 2, &[], &["line 1: `help`: expected a call"]),
    ("read -", b"03\r\n", 0, &["refused, 1: the line ends with a carriage return"], &[]),
    ("read -", b"020000000000000000000a\n", 0, &["refused, 1: the digits A to F have to be upper case"], &[]),
    ("read -", b"03", 0, &["refused, 1: the last line does not end with a line feed"], &[]),
    ("read -", b"opne clients 3\n03\n", 2, &[], &["line 1: `opne clients 3`: expected words or a frame", "--frames"]),
    ("read -", b"tick\nquit\n", 2, &["refused, 4"], &["line 2: `quit`: expected a call"]),
    ("frames -", b"tick\nquit\n", 2, &["03\n"], &["line 2: `quit`: expected a call"]),
    ("run", b"submit 0 by 1,5\n", 2, &[], &["line 1: `submit 0 by 1,5`: expected a number for deadline"]),
    ("draw -", b"tick\nfly 3\n", 2, &[], &["line 2: `fly 3`: expected open"]),
    ("draw - page.txt", b"", 2, &[], &["`page.txt`: expected the name of a page"]),
    ("compare page.txt", b"", 2, &[], &["page.txt: expected a name"]),
    ("read --frames -", b"\xFF\xFE\n", 0, &[r"\xff\xfe ", "refused, 1: character 1, byte FF"], &[]),
    ("run", b"03\r\n", 0, &["refused, 1: the line ends with a carriage return"], &[]),
    ("run", b"tick 3\n", 2, &[], &["line 1: `tick 3`: expected `tick`\n"]),
    ("run", b"report ,\n", 2, &[], &["line 1: `report ,`: expected a number for client"]),
    ("run", b"fade\n", 2, &[], &["line 1: `fade`: expected open"]),
    ("run", b"submit 0 \x1b[31m 1\n", 2, &[], &[r"line 1: `submit 0 \x1b[31m 1`: expected `submit CLIENT by DEADLINE`, and `\u{1b}[31m` stands where `by` has to"]),
    ("run", b"fly 5678901234567890123456789012345678901234567890123456789X\n", 2, &[], &["56789X`: expected open"]),
    ("run", b"fly 5678901234567890123456789012345678901234567890123456789XY\n", 2, &[], &["56789X...`: expected open"]),
    ("read -", b"0100020000006400\n", 0, &["a frame 01, open, has 68 digits (01, clients in 4, period in 8, records in 4, hour in 8, marks in 42), and this line has 16"], &[]),
    ("compare /nowhere/words.txt", b"", 2, &[], &["/nowhere/words.txt: expected a name that ends in .html or .svg"]),
    ("draw - /nowhere/words.txt", b"tick\n", 2, &[], &["`/nowhere/words.txt`: expected the name of a page"]),
    ("draw - /nowhere/x.html", b"01000100000001000100000001FFFFFFFFFFFFFFFFFFFFFFFFFFFFFFFFFFFFFFFFFF\n", 1, &["Session 1. "], &["welsbell: /nowhere/x.html: No such file"]),
];

const ARGUMENTS: &[&str] = &[
    "", "--all", "fly", "run now", "run --all", "read", "read --summary", "read --all -", "read --summary --all", "read - -", "frames",
    "frames --all", "frames --all -", "frames - -", "draw", "draw --summary -", "draw --all - /nowhere/x.html", "draw - /nowhere/x.html more",
    "compare --all", "compare --frames", "compare --all /nowhere/x.svg", "compare /nowhere/x.svg more",
];

/// Files that cannot be read, each the last of the arguments, and what is said of them.
const FILES: &[(&str, &str)] = &[
    ("read /nowhere/file", "No such file"),
    ("read --summary /nowhere/file", "No such file"),
    ("frames /nowhere/file", "No such file"),
    ("read /", "directory"),
    ("frames /", "directory"),
    ("draw /nowhere/file", "No such file"),
    ("draw /", "directory"),
    ("compare /nowhere/x.svg", "No such file"),
];

/// A session in words.
const WORDS: &str = "open clients 1 period 1 records 1\ntick\n";

/// In bytes.
const LEAST_PIPE: usize = 4_096;

/// An answer takes much less.
const LIMIT: Duration = Duration::from_secs(20);

fn hold_cases(welsbell: &Welsbell, checks: &mut Checks) {
    for (arguments, input, code, out, err) in [EMPTY, GOOD, BAD].concat() {
        let held = welsbell.ended(arguments, input).and_then(|ended| ended.hold(code, out, err));
        checks.hold(&format!("welsbell {arguments}, given {}", input.escape_ascii()), held);
    }
}

/// What begins like a call, and goes on where nothing of a line is kept any more, is none; a comment may be as long as it likes.
fn hold_long_words(welsbell: &Welsbell, checks: &mut Checks) {
    let lines = [format!("submit 0 by{:1012}12345\n", ""), format!("tick{:1100}fly\n", ""), format!("{:1100}tick\n", "")];
    for (line, arguments) in lines.iter().flat_map(|line| ["run", "frames -"].map(|arguments| (line, arguments))) {
        let held = welsbell.ended(arguments, line.as_str()).and_then(|ended| ended.hold(2, &[], &["line 1: `", "1,024 characters"]));
        checks.hold(&format!("welsbell {arguments}, given {} characters", line.len()), held);
    }
    let comment = welsbell.ended("run", format!("#{:1100}fly\n", ""));
    checks.hold("a long comment", comment.and_then(|ended| ended.hold(0, &[], &[])));
}

fn hold_arguments(welsbell: &Welsbell, checks: &mut Checks) {
    for &arguments in ARGUMENTS {
        let held = welsbell.ended(arguments, "").and_then(|ended| ended.hold(2, &[], USAGE));
        checks.hold(&format!("welsbell {arguments}"), held);
    }
}

fn hold_files(welsbell: &Welsbell, checks: &mut Checks) {
    for &(arguments, said) in FILES {
        let file = arguments.split(' ').next_back().unwrap_or_default();
        let held = welsbell.ended(arguments, "").and_then(|ended| ended.hold(1, &[], &[&format!("{file}: "), said]));
        checks.hold(&format!("welsbell {arguments}"), held);
    }
    let folder = File::open("/").map_or(Stdio::null(), Stdio::from);
    let held = output(welsbell.command("run").stdin(folder)).and_then(|ended| ended.hold(1, &[], &["directory"]));
    checks.hold("welsbell run, given a folder", held);
}

/// Where nobody can be told what is wrong, the exit code says it.
fn hold_untold(welsbell: &Welsbell, checks: &mut Checks) -> IoResult<()> {
    for (arguments, code) in [("fly", 2), ("read /nowhere/file", 1)] {
        let full = OpenOptions::new().write(true).open("/dev/full")?;
        let held = output(welsbell.command(arguments).stderr(full)).and_then(|ended| ended.hold(code, &[], &[]));
        checks.hold(&format!("welsbell {arguments}, untold"), held);
    }
    Ok(())
}

fn output(command: &mut Command) -> Result<Ended, String> {
    command.output().map(Ended::from).map_err(|error| error.to_string())
}

/// Without the session program the command says what to do; words to frames need none.
fn hold_programs(welsbell: &Welsbell, checks: &mut Checks) {
    let alone = welsbell.folder.join("build/alone");
    let copied = create_dir_all(&alone).and_then(|()| copy(&welsbell.path, alone.join("welsbell")));
    let run_alone = |arguments: &str| {
        let mut command = Command::new(alone.join("welsbell"));
        ended(command.arg(arguments).args((arguments != "run").then_some("-")).env_remove(VARIABLE), WORDS)
    };
    let run_with = |program: &str| ended(welsbell.command("read -").env(VARIABLE, program), WORDS);
    let to_do = "`package/build` builds it";
    let mut hold = |what: &str, ended: Result<Ended, String>, code: i32, out: &[&str], err: &[&str]| {
        checks.hold(what, ended.and_then(|ended| ended.hold(code, out, err)));
    };
    hold("no session program", run_alone("run"), 1, &[], &[to_do, VARIABLE]);
    hold("frames without a session program", run_alone("frames"), 0, &["03\n"], &[]);
    hold("a session program that is not there", run_with("/nowhere/program"), 1, &[], &["/nowhere/program: ", to_do, VARIABLE]);
    hold("a session program that ends", run_with("/bin/true"), 1, &[], &["the session program "]);
    hold("a session program that is another", run_with("/bin/cat"), 1, &[], &["the session program answered "]);
    // It takes every line for an open.
    let newer = welsbell.script("newer", "sed -u 's/^$/FF01/; t; s/.*/81/'").map_err(|error| error.to_string());
    let newer = newer.and_then(|newer| ended(welsbell.command("read -").env(VARIABLE, newer), "7F\n"));
    hold("a session program that knows other frames", newer, 1, &["opened"], &["the session program answered line 1 with `opened`"]);
    let copied = copied.and_then(|_| copy(&welsbell.program, alone.join("session_main")));
    // Where the prover builds it, there is another now.
    let built = welsbell.folder.join("target/bin");
    let copied = copied.and_then(|_| create_dir_all(&built)).and_then(|()| copy("/bin/true", built.join("session_main")));
    hold("a session program beside the command", run_alone("run"), 0, &["opened\nslot 0"], &[]);
    let link = welsbell.folder.join("link");
    let copied = copied.and_then(|_| symlink(alone.join("welsbell"), &link));
    let linked = ended(Command::new(&link).arg("run").env_remove(VARIABLE), WORDS);
    hold("a session program beside the command that is linked", linked, 0, &["opened\nslot 0"], &[]);
    checks.hold("copies", copied.map(drop).map_err(|error| error.to_string()));
}

/// However lines are written, no more is asked before an answer is read than the smallest pipe holds.
fn hold_asked(welsbell: &Welsbell, checks: &mut Checks) -> IoResult<()> {
    let asked = welsbell.folder.join("asked.txt");
    // It reads once, when there is all that is asked, and ends.
    let program = welsbell.script("counting", &format!("sleep 0.2; dd bs=65536 count=1 2>/dev/null | wc -c >'{}'", asked.display()))?;
    let long = "0".repeat(1_100) + "\n";
    for (what, lines) in [("short frames", "03\n".repeat(9_000)), ("long lines", long.repeat(9)), ("words", "submit 0 by 1\n".repeat(136) + &long)] {
        let ended = ended(welsbell.command("read -").env(VARIABLE, &program), lines);
        checks.hold(what, ended.and_then(|ended| ended.hold(1, &[], &["the session program "])));
        let bytes: usize = read_to_string(&asked)?.trim().parse().map_err(Error::other)?;
        let is_held = (1_000..=LEAST_PIPE).contains(&bytes);
        checks.hold(what, is_held.then_some(()).ok_or_else(|| format!("{bytes} bytes were asked at a time")));
    }
    Ok(())
}

/// Where nobody reads, the command ends without a word; where the disk is full, it says so.
fn hold_unread(welsbell: &Welsbell, input: &Path, checks: &mut Checks) -> IoResult<()> {
    for arguments in ["help", "run", "read -", "read --summary -", "frames -", "draw -", "compare"] {
        let (reader, writer) = pipe()?;
        drop(reader);
        let ended = output(welsbell.command(arguments).stdin(File::open(input)?).stdout(writer));
        checks.hold(&format!("welsbell {arguments}, unread"), ended.and_then(|ended| ended.hold(0, &[], &[])));
        let full = OpenOptions::new().write(true).open("/dev/full")?;
        let ended = output(welsbell.command(arguments).stdin(File::open(input)?).stdout(full));
        let held = ended.and_then(|ended| ended.hold(1, &[], &["welsbell: No space left"]));
        checks.hold(&format!("welsbell {arguments}, to a full disk"), held);
    }
    Ok(())
}

/// Whoever reads may go away behind the first line.
fn hold_half_read(welsbell: &Welsbell, input: &Path, checks: &mut Checks) -> IoResult<()> {
    for arguments in ["run", "read -", "frames -"] {
        let mut command = welsbell.command(arguments);
        let mut child = command.stdin(File::open(input)?).stdout(Stdio::piped()).stderr(Stdio::piped()).spawn()?;
        let mut first = String::new();
        BufReader::new(child.stdout.take().ok_or(Error::other("no pipe"))?).read_line(&mut first)?;
        let ended = Ended::from(child.wait_with_output()?);
        checks.hold(&format!("welsbell {arguments} | head -1"), ended.hold(0, &[], &[]));
    }
    Ok(())
}

fn hold_readers(welsbell: &Welsbell, checks: &mut Checks) -> IoResult<()> {
    let input = welsbell.folder.join("long.txt");
    write(&input, [frames::open(1, 1, 1), "\n03".repeat(50_000), "\n".into()].concat())?;
    hold_unread(welsbell, &input, checks)?;
    hold_half_read(welsbell, &input, checks)?;
    // What is written only at the end is written too.
    write(&input, "03\n")?;
    hold_unread(welsbell, &input, checks)
}

/// In a pipe too each line is answered before the next is written.
fn hold_dialogue(welsbell: &Welsbell, arguments: &str, expected: [&str; 2]) -> IoResult<()> {
    let mut child = welsbell.command(arguments).stdin(Stdio::piped()).stdout(Stdio::piped()).spawn()?;
    let (Some(mut input), Some(output)) = (child.stdin.take(), child.stdout.take()) else {
        return Err(Error::other("no pipes"));
    };
    let (sender, answers) = channel();
    spawn(move || BufReader::new(output).lines().map_while(Result::ok).try_for_each(|answer| sender.send(answer)));
    for (line, expected) in WORDS.lines().zip(expected) {
        writeln!(input, "{line}")?;
        let answer = answers.recv_timeout(LIMIT).unwrap_or("no answer".into());
        if !answer.starts_with(expected) {
            child.kill().and_then(|()| child.wait())?;
            return Err(Error::other(format!("{line}: {answer}")));
        }
    }
    drop(input);
    child.wait().map(drop)
}

/// However a pipe cuts the input, and behind many empty lines, words are words.
fn hold_pieces(welsbell: &Welsbell, checks: &mut Checks) {
    let behind = welsbell.ended("read -", "\n".repeat(99) + WORDS);
    checks.hold("words behind empty lines", behind.and_then(|ended| ended.hold(0, &["  100  open", "opened\n", "slot 0"], &[])));
    let pauses = "(printf '\\n'; sleep 0.1; printf 'op'; sleep 0.1; printf 'en clients 1 period 1 records 1\\ntick\\n') | \"$0\" read -";
    let mut bash = Command::new("bash");
    let held = ended(bash.arg("-c").arg(pauses).arg(&welsbell.path), "");
    checks.hold("words in pieces", held.and_then(|ended| ended.hold(0, &["opened\n", "slot 0"], &[])));
}

pub fn hold(welsbell: &Welsbell, checks: &mut Checks) {
    hold_cases(welsbell, checks);
    hold_long_words(welsbell, checks);
    hold_arguments(welsbell, checks);
    hold_files(welsbell, checks);
    hold_programs(welsbell, checks);
    hold_pieces(welsbell, checks);
    let untold = hold_untold(welsbell, checks);
    checks.hold("untold", untold.map_err(|error| error.to_string()));
    let asked = hold_asked(welsbell, checks);
    checks.hold("what is asked at a time", asked.map_err(|error| error.to_string()));
    let readers = hold_readers(welsbell, checks);
    checks.hold("readers", readers.map_err(|error| error.to_string()));
    for (arguments, expected) in [("run", ["opened", "slot 0"]), ("frames -", ["01000100000001000100000001FFFFFFFFFFFFFFFFFFFFFFFFFFFFFFFFFFFFFFFFFF", "03"])] {
        let held = hold_dialogue(welsbell, arguments, expected).map_err(|error| error.to_string());
        checks.hold(&format!("a dialogue in a pipe, welsbell {arguments}"), held);
    }
}
