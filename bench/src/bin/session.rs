// The session program beside two by hand.
//   serve tuned      is the one by hand over calls that check their tables: standard input in, standard output out
//   serve floor      is the one over calls that trust them
//   agree PROGRAM    holds the program to those by hand, byte by byte, on short sessions
//   time PROGRAM     does so on long busy ones, and says how long each takes
use bench::busy::{session, Station};
use bench::by_hand::floor::Floor;
use bench::by_hand::tuned::Tuned;
use bench::fail;
use bench::measure::ratios;
use bench::serve::{serve, SEGMENT};
use std::env::{args, current_exe};
use std::fs::{read, write, File};
use std::path::PathBuf;
use std::process::Command;
use std::time::{Duration, Instant};
use tests::random::{self, Random};
use tests::tables::*;
use tests::tally::Tally;

// Busy sessions, and how many frames they have.
const BUSY: [Station; 3] = [
    Station::new(16, 4),
    Station::new(2_048, 256),
    Station::new(2_048, 256).every_second_closed(360),
];
// Others that are not timed, with hours of few slots.
const HELD: [Station; 2] = [
    Station::new(16, 4).every_second_closed(1),
    Station::new(200, 5).every_second_closed(16),
];
const SHORT: usize = 20_000;
const LONG: usize = 1_000_000;
const ROUNDS: usize = 9;

// One of the random ones has a table that becomes full or nearly so.
const SEED: u64 = 1_912;
const RANDOM: u64 = 300;

const KINDS: [u64; 9] = [OPENED, KEPT, DROPPED, SERVED, IDLE, REPORT, SEGMENT, CHART, CLOSED];
// the others cannot occur in a session as short as these
const REFUSALS: [u64; 10] = [1, 2, 3, 4, 6, 7, 10, 13, 14, 15];

// One that answers a session: the proved program, or this one by hand.
struct Program {
    name: &'static str,
    path: PathBuf,
    arguments: &'static [&'static str],
}

type Programs = [Program; 3];

fn here() -> PathBuf {
    current_exe().expect("this program's path")
}

// The session and its answers are in files beside this program.
fn file(what: &str) -> PathBuf {
    here().with_extension(what)
}

impl Program {
    // Gives how long it took to answer the session into a file.
    fn run(&self, answers: PathBuf) -> Duration {
        let from = File::open(file("in")).expect("the session");
        let to = File::create(answers).expect("a file for the answers");
        let mut command = Command::new(&self.path);
        command.args(self.arguments).stdin(from).stdout(to);
        let start = Instant::now();
        let status = command.status();
        let elapsed = start.elapsed();
        match status {
            Ok(status) if status.success() => elapsed,
            Ok(status) => fail(&format!("{command:?}: {status}")),
            Err(e) => fail(&format!("{command:?}: {e}")),
        }
    }

    fn answer(&self) -> Vec<u8> {
        self.run(file(self.name));
        read(file(self.name)).expect("the answers")
    }

    // Seconds. The answers are thrown away, so that the disk is not timed.
    fn time(&self) -> f64 {
        self.run("/dev/null".into()).as_secs_f64()
    }
}

fn programs(proved: &str) -> Programs {
    let by_hand = |name, arguments| Program {
        name,
        path: here(),
        arguments,
    };
    let proved = Program {
        name: "proved",
        path: proved.into(),
        arguments: &[],
    };
    [
        proved,
        by_hand("tuned", &["serve", "tuned"]),
        by_hand("floor", &["serve", "floor"]),
    ]
}

// The answers to the session, if all gave the same. It stays in its file.
fn agreed(programs: &Programs, input: &[u8]) -> Vec<u8> {
    write(file("in"), input).expect("a file for the session");
    let [proved, by_hand @ ..] = programs;
    let answers = proved.answer();
    for program in by_hand {
        let others = program.answer();
        if answers != others {
            let difference = difference(&answers, &others);
            fail(&format!(
                "{}: {} and proved, {difference}",
                file("in").display(),
                program.name
            ));
        }
    }
    answers
}

// The first line of the input that the two answered differently. Each line has one answer, behind a chart's segments.
fn difference(proved: &[u8], by_hand: &[u8]) -> String {
    let [proved, by_hand] = [proved, by_hand].map(|answers| answers.split_inclusive(|&b| b == b'\n'));
    let mut line = 1;
    for (a, b) in proved.zip(by_hand) {
        if a != b {
            return format!("line {line}: {} and {}", b.escape_ascii(), a.escape_ascii());
        }
        line += !a.starts_with(b"87") as usize;
    }
    format!("line {line}: one gave more answers")
}

// An answer's number, and with a refusal its own.
fn count(tally: &mut Tally, answers: &[u8]) {
    let byte = |digits: &[u8]| u64::from_str_radix(&String::from_utf8_lossy(digits), 16).unwrap_or_default();
    for line in answers.split_inclusive(|&b| b == b'\n') {
        match byte(&line[..2]) {
            REFUSED => tally.count(&[REFUSED, byte(&line[2..4])]),
            kind => tally.count(&[kind]),
        }
    }
}

fn agree(programs: &Programs) {
    let busy = BUSY.iter().chain(&HELD).map(|station| session(station, SHORT));
    let others = (0..RANDOM).map(|i| random::session::session(Random::of_part(SEED, i), i == 0));
    let mut tally = Tally::default();
    for input in busy.chain(others) {
        count(&mut tally, &agreed(programs, &input));
    }
    let count = BUSY.len() + HELD.len();
    println!("{count} busy sessions and {RANDOM} random ones: all agree on every byte\n{tally}");
    let missing = tally.missing(&KINDS, &REFUSALS);
    if !missing.is_empty() {
        fail(&format!("{missing:?}"));
    }
}

// Of each program its runs, sorted.
fn times(programs: &Programs) -> [[f64; ROUNDS]; 3] {
    let mut times = [[0.0; ROUNDS]; 3];
    for round in 0..ROUNDS {
        for (program, times) in programs.iter().zip(&mut times) {
            times[round] = program.time();
        }
    }
    for times in &mut times {
        times.sort_by(f64::total_cmp);
    }
    times
}

fn compare(programs: &Programs) {
    println!();
    println!(
        "Frames a second in busy sessions of {LONG} frames, read from a file, the answers thrown away; the best of {ROUNDS}"
    );
    println!(
        "runs in turn. The ratios are of times. First all have to give the same answers, byte by byte. Where half of the hours"
    );
    println!("are open, every second one is closed, of 360 slots each.");
    println!("records  clients    hours    proved     tuned     floor  proved:tuned  proved:floor");
    let mut noise = 0.0;
    for station in BUSY {
        agreed(programs, &session(&station, LONG));
        let times = times(programs);
        let best = times.map(|sorted| sorted[0]);
        let [proved, tuned, floor] = best.map(|seconds| LONG as f64 / seconds);
        let [to_tuned, to_floor] = ratios(best);
        let Station { records, clients, week } = station;
        let hours = if week.marks == [0xFF; 21] { "all open" } else { "half" };
        println!("{records:7}  {clients:7} {hours:>8} {proved:9.0} {tuned:9.0} {floor:9.0}  {to_tuned:12.2}  {to_floor:12.2}");
        noise = times
            .iter()
            .map(|sorted| sorted[ROUNDS / 2] / sorted[0] - 1.0)
            .fold(noise, f64::max);
    }
    println!("The median run takes at most {:.1} % longer than the best.", 100.0 * noise);
}

fn main() {
    let arguments: Vec<String> = args().skip(1).collect();
    let arguments: Vec<&str> = arguments.iter().map(String::as_str).collect();
    match arguments[..] {
        // where nobody reads the answers, there is nobody to tell either
        ["serve", "tuned"] => drop(serve::<Tuned>()),
        ["serve", "floor"] => drop(serve::<Floor>()),
        ["agree", program] => agree(&programs(program)),
        ["time", program] => compare(&programs(program)),
        _ => fail("serve tuned, serve floor, agree PROGRAM or time PROGRAM"),
    }
}
