//! The comparison in numbers, for a terminal.
use super::outcome::{Comparison, Run};
use crate::numbers::counted;
use std::fmt::{self, Display, Formatter};

/// Where the numbers are from.
pub const SOURCES: &str = "The queue's rows are the proved session program's; the others are simulated. Clients are numbered from 1, as in the paper.";

/// What the ratios are.
const MEANING: &str = "Success, which is served in time / arrived, of all reads and of the worst client";

/// Clients are numbered from 1, as the paper does.
pub fn client_name(client: usize) -> String {
    format!("client {}", client + 1)
}

/// What an experiment is, in a few words.
pub fn about(comparison: &Comparison) -> String {
    let clients = counted(comparison.experiment.clients.len() as u64, "client");
    let reads = counted(comparison.reads(), "read");
    format!("{}: {clients}, {reads}", comparison.experiment.name)
}

pub struct Table<'a>(pub &'a [Comparison]);

fn write_run(f: &mut Formatter, run: &Run) -> fmt::Result {
    let worst = run.worst();
    let (name, of_worst) = (client_name(worst), run.clients[worst]);
    writeln!(f, "  {:30} {:>6}  {of_worst}, {name}", run.policy.marked(), run.system)
}

fn write_experiment(f: &mut Formatter, comparison: &Comparison) -> fmt::Result {
    writeln!(f, "{}", about(comparison))?;
    comparison.runs.iter().try_for_each(|run| write_run(f, run))
}

impl Display for Table<'_> {
    fn fmt(&self, f: &mut Formatter) -> fmt::Result {
        writeln!(f, "{MEANING}")?;
        writeln!(f, "{:32} {:>6}  worst client", "", "system")?;
        self.0.iter().try_for_each(|comparison| write_experiment(f, comparison))?;
        write!(f, "{SOURCES}")
    }
}
