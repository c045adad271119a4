//! Holds `welsbell`, the command for people, to the slow model on random sessions, said and drawn, and to what it owes its user in a
//! pipe, on large inputs and at a terminal. The arguments are the command's path and, if wanted, a seed. The session program is where
//! the command finds it.
mod checks;
mod drawn;
mod large;
mod list;
mod pipes;
mod reasons;
mod sessions;
mod terminal;
mod terminals;

use checks::{Checks, Welsbell};
use std::env::args;
use tests::program::{end, fail, seed};

fn main() {
    let arguments: Vec<String> = args().collect();
    let Some(path) = arguments.get(1) else {
        fail("command WELSBELL [SEED]");
    };
    let welsbell = Welsbell::at(path).unwrap_or_else(|error| fail(format!("{path}: {error}")));
    let mut checks = Checks::default();
    pipes::hold(&welsbell, &mut checks);
    terminals::hold(&welsbell, &mut checks);
    checks.tell(format!("{} cases in a pipe and at a terminal: all as they have to be", checks.held));
    large::hold(&welsbell, &mut checks);
    let seed = seed(arguments.get(2));
    sessions::hold(&welsbell, seed, &mut checks);
    drawn::hold(&welsbell, seed, &mut checks);
    drop(welsbell);
    end(checks.faults);
}
