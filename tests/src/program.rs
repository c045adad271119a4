//! How the test programs run others, how those over random input take a seed, and how they end.
use std::fmt::Display;
use std::io::{Error, ErrorKind, Read, Result, Write};
use std::process::{exit, Command, Output, Stdio};
use std::sync::mpsc::channel;
use std::thread::spawn;
use std::time::Duration;

// The seed of a run that is given none.
const SEED: u64 = 1_912;

// What is run takes much less.
const LIMIT: Duration = Duration::from_secs(60);

pub fn fail(message: impl Display) -> ! {
    println!("{message}");
    exit(1);
}

// The seed is printed first, so that every run can be had again.
pub fn seed(argument: Option<&String>) -> u64 {
    let seed = argument.map_or(Ok(SEED), |seed| seed.parse());
    let seed = seed.unwrap_or_else(|e| fail(format!("the seed: {e}")));
    println!("seed {seed}");
    seed
}

// What had to occur and did not is a fault of the test.
pub fn end(missing: Vec<String>) {
    if !missing.is_empty() {
        fail(missing.join("\n"));
    }
}

// Runs a command to its end, with an input that comes in these pieces. Feeds and reads aside, so that neither side waits for the
// other. What a program that has ended does not take shows in what it printed.
pub fn run(command: &mut Command, pieces: Vec<Vec<u8>>) -> Result<Output> {
    command.stdin(Stdio::piped()).stdout(Stdio::piped()).stderr(Stdio::piped());
    let mut child = command.spawn()?;
    let (Some(mut input), Some(mut output)) = (child.stdin.take(), child.stdout.take()) else {
        return Err(Error::other("no pipes"));
    };
    spawn(move || pieces.iter().try_for_each(|piece| input.write_all(piece)));
    let (sender, printed) = channel();
    spawn(move || {
        let mut all = vec![];
        sender.send(output.read_to_end(&mut all).map(|_| all))
    });
    let Ok(stdout) = printed.recv_timeout(LIMIT) else {
        child.kill()?;
        return Err(Error::new(ErrorKind::TimedOut, format!("no end within {LIMIT:?}")));
    };
    let ended = child.wait_with_output()?;
    Ok(Output {
        stdout: stdout?,
        ..ended
    })
}
