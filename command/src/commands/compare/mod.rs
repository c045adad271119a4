//! `welsbell compare`: what fairness is worth. The paper's experiments in whole slots, on the proved session program and, beside it, on
//! policies that are simulated here.
mod experiment;
mod figures;
mod outcome;
mod policy;
mod proved;
mod results;
mod simulated;
mod table;
mod windows;

use crate::failure::Failure;
use experiment::EXPERIMENTS;
use outcome::Comparison;
use std::fs::write;
use std::io::{stdout, Error, Write};
use std::path::Path;
use table::Table;

fn comparisons() -> Result<Vec<Comparison>, Failure> {
    EXPERIMENTS.iter().map(Comparison::of).collect()
}

/// Prints the table.
pub fn print() -> Result<(), Failure> {
    writeln!(stdout(), "{}", Table(&comparisons()?))?;
    Ok(())
}

/// Writes the page, or the picture of the second experiment alone where the file's name ends as a picture's.
pub fn draw(file: &Path) -> Result<(), Failure> {
    let ending = file.extension().map(|ending| ending.to_string_lossy().to_lowercase());
    let (what, text) = match ending.as_deref() {
        Some("svg") => ("picture", figures::whole(&Comparison::of(&EXPERIMENTS[1])?)),
        Some("html" | "htm") => ("page", results::results(&comparisons()?)),
        _ => return Err(Failure::Wrong(format!("{}: expected a name that ends in .html or .svg", file.display()))),
    };
    write(file, text).map_err(|error: Error| Failure::Failed(format!("{}: {error}", file.display())))?;
    writeln!(stdout(), "The {what} is {}.", file.display())?;
    Ok(())
}
