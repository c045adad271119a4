//! Inputs that are large: they take little memory and little time, and are answered as small ones are.
use crate::checks::{numbers, Checks, Ended, Welsbell};
use std::fs::read_to_string;
use std::io::{Error, Read, Result as IoResult, Write};
use std::process::{Output, Stdio};
use std::thread::{spawn, JoinHandle};
use std::time::Instant;
use tests::frames::{open, submit, TICK};

/// The most memory that the command may have at any time, in megabytes: much less than a long line or all lines have.
const MOST: f64 = 8.0;

/// A line has so many characters, in so many parts.
const PART: usize = 1 << 16;
const PARTS: usize = 800;

/// Each time two reads come of which one is dropped, one slot serves and one is idle: four lines.
const TIMES: u64 = 250_000;

const RECORDS: u16 = 2_048;
const CHARTS: usize = 600;
const EMPTY: usize = 100_000;

/// How the command came to its end, its most memory in megabytes, and its seconds.
struct Fed {
    ended: Ended,
    memory: f64,
    seconds: f64,
}

/// Reads to the end aside, so that the command never waits for a reader.
fn read_aside(from: Option<impl Read + Send + 'static>) -> JoinHandle<Vec<u8>> {
    spawn(move || {
        let mut all = vec![];
        from.map(|mut from| from.read_to_end(&mut all));
        all
    })
}

/// The most memory that a process has had so far.
fn memory(process: u32) -> IoResult<f64> {
    let status = read_to_string(format!("/proc/{process}/status"))?;
    let line = status.lines().find(|line| line.starts_with("VmHWM:"));
    let kilobytes = line.and_then(|line| numbers(line).first().copied());
    kilobytes.map(|kilobytes| kilobytes as f64 / 1_024.0).ok_or(Error::other("no VmHWM"))
}

/// The input is the part so many times and then a line feed. Memory is looked at before that, since the command still waits then.
fn fed(welsbell: &Welsbell, arguments: &str, part: &[u8], times: usize) -> IoResult<Fed> {
    let began = Instant::now();
    let mut command = welsbell.command(arguments);
    let mut child = command.stdin(Stdio::piped()).stdout(Stdio::piped()).stderr(Stdio::piped()).spawn()?;
    let (stdout, stderr) = (read_aside(child.stdout.take()), read_aside(child.stderr.take()));
    let mut input = child.stdin.take().ok_or(Error::other("no pipe"))?;
    for _ in 0..times {
        input.write_all(part)?;
    }
    let memory = memory(child.id())?;
    input.write_all(b"\n")?;
    drop(input);
    let status = child.wait()?;
    let [stdout, stderr] = [stdout, stderr].map(|all| all.join().unwrap_or_default());
    Ok(Fed {
        ended: Ended::from(Output { status, stdout, stderr }),
        memory,
        seconds: began.elapsed().as_secs_f64(),
    })
}

impl Fed {
    fn hold(&self, code: i32, out: &[&str], err: &[&str]) -> Result<(), String> {
        if self.memory > MOST {
            return Err(format!("it took {:.1} MB", self.memory));
        }
        self.ended.hold(code, out, err)
    }
}

fn hold_fed(what: &str, fed: IoResult<Fed>, held: impl Fn(&Fed) -> Result<(), String>, checks: &mut Checks) {
    let is_held = match &fed {
        Ok(fed) => held(fed),
        Err(error) => Err(error.to_string()),
    };
    checks.hold(what, is_held);
    if let Ok(Fed { memory, seconds, .. }) = fed {
        println!("{what}: {seconds:.1} s, {memory:.1} MB");
    }
}

fn a_million_lines() -> String {
    let four = |time: u64| {
        let submits = [submit(0, 2 * time + 1), submit(1, 2 * time + 1)];
        format!("\n{}\n{}\n{TICK}\n{TICK}", submits[0], submits[1])
    };
    open(2, 1_000, 8) + &(0..TIMES).map(four).collect::<String>()
}

/// Charts with as many segments as there can be, and then more empty lines than a pipe and a buffer hold, which only say that all charts
/// were answered when memory is looked at.
fn many_charts() -> String {
    let submits: String = (1..=RECORDS).map(|place| format!("\n{}", submit(0, 2 * u64::from(place)))).collect();
    open(1, 1_000, RECORDS) + &submits + &"\n05".repeat(CHARTS) + &"\n".repeat(EMPTY)
}

/// The summary of a million lines, by arithmetic.
fn hold_summary(fed: &Fed) -> Result<(), String> {
    fed.hold(0, &["Opened in line 1", "Refused: nothing."], &[])?;
    let all = fed.ended.out.lines().find(|line| line.trim_start().starts_with("all ")).map(numbers);
    let passed = fed.ended.out.lines().find(|line| line.contains(" passed, ")).map(numbers);
    let is_right = all == Some(vec![2 * TIMES, TIMES, TIMES, 0, 0, 500]) && passed == Some(vec![2 * TIMES, TIMES]);
    is_right.then_some(()).ok_or_else(|| fed.ended.out.clone())
}

pub fn hold(welsbell: &Welsbell, checks: &mut Checks) {
    let part = "03".repeat(PART / 2).into_bytes();
    let line = |arguments: &str| fed(welsbell, arguments, &part, PARTS);
    hold_fed("run, a line of 50 MB", line("run"), |fed| fed.hold(0, &["refused, 1: "], &[]), checks);
    hold_fed("read --summary, a line of 50 MB", line("read --summary -"), |fed| fed.hold(0, &["Refused: 1 line "], &[]), checks);
    hold_fed("frames, a line of 50 MB", line("frames -"), |fed| fed.hold(2, &[], &["line 1: `0303"]), checks);
    let lines = a_million_lines();
    let million = |arguments: &str| fed(welsbell, arguments, lines.as_bytes(), 1);
    hold_fed("read --summary, a million lines", million("read --summary -"), hold_summary, checks);
    hold_fed("draw, a million lines", million("draw -"), |fed| fed.hold(0, &["Session 1. Opened in line 1"], &[]), checks);
    let empty = fed(welsbell, "read --summary -", &[b'\n'; EMPTY], 5);
    hold_fed("read --summary, half a million empty lines", empty, |fed| fed.hold(0, &["Refused: 500,001 lines "], &[]), checks);
    let charts = fed(welsbell, "read --summary -", many_charts().as_bytes(), 1);
    hold_fed("read --summary, charts of 2,048 segments", charts, |fed| fed.hold(0, &["Refused: 100,000 lines "], &[]), checks);
    let is_same = |fed: &Fed| if fed.ended.out.trim_end() == lines { fed.hold(0, &["\n"], &[]) } else { Err("they are others".into()) };
    hold_fed("frames, a million lines", million("frames -"), is_same, checks);
}
