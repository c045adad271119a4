// Holds the session program to the slow model on random sessions, byte by byte, and to demand 3 on the lists of calls in them; and
// shows of each fault that the model can have that the comparison finds it. The arguments are the program's path, then, if wanted, a
// seed, and the name of a fault that the model is to have all the time.
use std::env::args;
use std::process::Command;
use tests::counted::followed::Followed;
use tests::counted::shifts::MOST_SHIFT;
use tests::counted::tally::Tally;
use tests::demand_3::Lists;
use tests::model::session::{call_and_answer, read, session, widths_out, Answered, SEGMENT};
use tests::model::{Fault, FAULTS, KINDS};
use tests::program::{end, fail, run, seed};
use tests::random::{self, Random};

const SESSIONS: u64 = 3_000;

// One session of so many has a large table that becomes full.
const LARGE_ONE_OF: u64 = 375;

// So many there have to be: answers, lists held to demand 3, and such lists with drops, idle ticks and refused calls.
const ANSWERS: usize = 200_000;
const LISTS: u64 = 5_000;
const LISTS_OF_A_KIND: u64 = 2_000;

// The others cannot occur in a session this short.
const REFUSALS: [u64; 10] = [1, 2, 3, 13, 14, 4, 6, 7, 15, 10];

// With so many slots an hour a tick has to lead from an open hour to a closed one, or back. No session leaves a longer hour.
const LEFT_HOURS: [u64; 6] = [1, 2, 3, 7, 360, 3_600];

// The first characters up to a line feed, readable.
fn shown(bytes: &[u8]) -> String {
    let line = bytes.split(|&byte| byte == b'\n').next().unwrap_or_default();
    line[..line.len().min(200)].escape_ascii().to_string()
}

// Random pieces of the input, in which a pipe hands it on.
fn pieces(mut input: &[u8], random: &mut Random) -> Vec<Vec<u8>> {
    let most = if input.len() < 10_000 {
        random.one_of(&[3, 50, 5_000])
    } else {
        30_000
    };
    let mut pieces = vec![];
    while !input.is_empty() {
        let (piece, rest) = input.split_at(input.len().min(1 + random.below(most)));
        pieces.push(piece.to_vec());
        input = rest;
    }
    pieces
}

// What the program printed for each line, if it is what the model says of all of them.
fn compare<'a>(answered: &[Answered], mut printed: &'a [u8]) -> Result<Vec<&'a [u8]>, String> {
    let mut answers = vec![];
    for (i, expected) in answered.iter().enumerate() {
        let text = expected.printed.as_bytes();
        if !printed.starts_with(text) {
            let is_same = |&at: &usize| text.get(at) == printed.get(at);
            let same = (0..text.len()).take_while(is_same).count();
            let from = text[..same]
                .iter()
                .rposition(|&byte| byte == b'\n')
                .map_or(0, |feed| feed + 1);
            let [line, expected, came] = [expected.line, &text[from..], &printed[from..]].map(shown);
            return Err(format!("line {}: {line}\nexpected {expected}\n    came {came}", i + 1));
        }
        let (answer, rest) = printed.split_at(text.len());
        answers.push(answer);
        printed = rest;
    }
    if printed.is_empty() {
        Ok(answers)
    } else {
        Err(format!("more came behind the last answer: {}", shown(printed)))
    }
}

// The program under test, and what all sessions together gave.
struct Test {
    program: String,
    seed: u64,
    fault: Fault,
    answers: usize,
    tally: Tally,
    followed: Followed,
    lists: Lists,
}

impl Test {
    fn new(program: &str, seed: u64, fault: Fault) -> Test {
        Test {
            program: program.into(),
            seed,
            fault,
            answers: 0,
            tally: Tally::default(),
            followed: Followed::default(),
            lists: Lists::default(),
        }
    }

    fn session(&mut self, number: u64) -> Result<(), String> {
        let input = random::session::session(Random::of_part(self.seed, number), number.is_multiple_of(LARGE_ONE_OF));
        let pieces = pieces(&input, &mut Random::of_part(self.seed, SESSIONS + number));
        let ended = run(&mut Command::new(&self.program), pieces).map_err(|e| format!("{}: {e}", self.program))?;
        let answered = session(&input, self.fault);
        let answers = compare(&answered, &ended.stdout)?;
        if !ended.status.success() || !ended.stderr.is_empty() {
            return Err(format!("{}, {}", ended.status, shown(&ended.stderr)));
        }
        for (i, (answered, printed)) in answered.iter().zip(answers).enumerate() {
            let followed = self.follow(answered.line, printed);
            followed.map_err(|e| format!("line {}: {}\n{e}", i + 1, shown(answered.line)))?;
        }
        self.answers += answered.len();
        self.lists.end()
    }

    fn follow(&mut self, line: &[u8], printed: &[u8]) -> Result<(), String> {
        let lines = printed.split(|&byte| byte == b'\n');
        let answers: Vec<Vec<u64>> = lines.filter_map(|line| read(line, widths_out)).collect();
        answers.iter().for_each(|answer| self.tally.count(answer));
        let Some((call, answer)) = call_and_answer(line, printed) else {
            return Ok(());
        };
        let segments = answers.iter().filter_map(|answer| match answer[..] {
            [SEGMENT, left, right] => Some((left, right)),
            _ => None,
        });
        self.followed.take(&call, &answer, &segments.collect::<Vec<_>>())?;
        self.lists.follow(&call, &answer)
    }

    // What has to have occurred and has not.
    fn missing(&self) -> Vec<String> {
        let mut missing = self.tally.missing(&[&KINDS[..], &[SEGMENT]].concat(), &REFUSALS);
        missing.extend(self.followed.shifts.missing(MOST_SHIFT));
        missing.extend(self.followed.hours.missing());
        missing.extend(self.followed.hours.missing_opens());
        missing.extend(self.followed.hours.missing_changes(&LEFT_HOURS));
        if self.answers < ANSWERS {
            missing.push(format!("fewer than {ANSWERS} answers"));
        }
        if self.lists.lists < LISTS {
            missing.push(format!("fewer than {LISTS} lists"));
        }
        if self.lists.fewest_of_a_kind() < LISTS_OF_A_KIND {
            missing.push(format!("fewer than {LISTS_OF_A_KIND} lists of some kind"));
        }
        missing
    }

    fn print(&self) {
        println!("{}\n{}\n{}", self.tally, self.followed.shifts, self.followed.hours);
        println!("{SESSIONS} sessions, {} answers: all as the model says", self.answers);
        println!("{}", self.lists);
    }
}

// The faults that no session with a small table shows. Where all sessions are as the model says without one, what differs with it is
// the fault.
fn unfound(program: &str, seed: u64) -> Vec<String> {
    let is_found = |fault: Fault| {
        let mut test = Test::new(program, seed, fault);
        (1..LARGE_ONE_OF).any(|number| test.session(number).is_err())
    };
    let unfound = FAULTS.iter().filter(|(_, fault)| !is_found(*fault));
    unfound.map(|(name, _)| format!("not found: {name}")).collect()
}

fn main() {
    let arguments: Vec<String> = args().collect();
    let fault = arguments.get(3).map_or(Some(Fault::None), |name| Fault::named(name));
    let (Some(program), Some(fault)) = (arguments.get(1), fault) else {
        fail(format!(
            "random PROGRAM [SEED [{}]]",
            FAULTS.map(|(name, _)| name).join(" | ")
        ));
    };
    let mut test = Test::new(program, seed(arguments.get(2)), fault);
    for number in 0..SESSIONS {
        let held = test.session(number);
        held.unwrap_or_else(|difference| fail(format!("seed {}, session {number}, {difference}", test.seed)));
    }
    test.print();
    end(test.missing());
    end(unfound(program, test.seed));
    println!("{} faults planted in the model, one at a time: all found", FAULTS.len());
}
