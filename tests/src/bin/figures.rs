//! Holds the figures in the README's table "What stands behind it" to what they are figures of: the prover's logs, the must-fail edits,
//! the archive, and what the tests of this run said, in the file that is the argument.
use std::env::args;
use std::fs;
use std::process::Command;
use tests::program::fail;

const README: &str = "README.md";
const ARCHIVE: &str = "target/staticlib/libwelsbell.a";

fn text_of(path: &str) -> String {
    fs::read_to_string(path).unwrap_or_else(|e| fail(format!("{path}: {e}")))
}

/// With a comma before each three digits, as the README has numbers.
fn grouped(number: u64) -> String {
    let digits = number.to_string();
    let parts: Vec<&str> = digits.as_bytes().rchunks(3).rev().map(|part| std::str::from_utf8(part).unwrap_or_default()).collect();
    parts.join(",")
}

/// The numbers in the line of what the tests said that has these words.
fn numbers<const COUNT: usize>(said: &str, words: &str) -> [u64; COUNT] {
    let line = said.lines().find(|line| line.contains(words)).unwrap_or_default();
    let numbers = line.split(|c: char| !c.is_ascii_digit()).filter_map(|number| number.parse().ok());
    let numbers: Vec<u64> = numbers.take(COUNT).collect();
    numbers.try_into().unwrap_or_else(|_| fail(format!("the tests did not say how many: `{words}`")))
}

/// The crates that are listed, which are proved.
fn crates() -> Vec<String> {
    let list = text_of("crates.txt");
    let lines = list.lines().filter(|line| !line.starts_with('#'));
    // Behind the name of a static library stands that it is one.
    let names = lines.filter_map(|line| line.split_once(':')?.0.split_whitespace().next());
    names.map(str::to_string).collect()
}

/// The sum of a count in the prover's verdicts, `functions=16`, of all crates.
fn proved(count: &str) -> u64 {
    let verdict = |name: &String| {
        let log = text_of(&format!("target/log/{name}.say"));
        let line = log.lines().rev().find(|line| line.starts_with("logic=proved ")).map(str::to_string);
        line.unwrap_or_else(|| fail(format!("{name} is not proved")))
    };
    let count_in = |line: &str| -> u64 {
        let value = line.split_whitespace().find_map(|word| word.strip_prefix(count)?.strip_prefix('='));
        value.and_then(|value| value.parse().ok()).unwrap_or_default()
    };
    crates().iter().map(|name| count_in(&verdict(name))).sum()
}

fn edits() -> u64 {
    let edits_of = |name: &String| fs::read_dir(format!("crates/{name}/must-fail")).map_or(0, |folder| folder.count() as u64);
    crates().iter().map(edits_of).sum()
}

/// The bytes of code in the archive.
fn code() -> u64 {
    let ran = Command::new("size").arg(ARCHIVE).output();
    let said = ran.unwrap_or_else(|e| fail(format!("size: {e}"))).stdout;
    let said = String::from_utf8_lossy(&said).into_owned();
    let text = said.lines().nth(1).and_then(|line| line.split_whitespace().next()?.parse().ok());
    text.unwrap_or_else(|| fail(format!("size said {said}")))
}

/// What a row of the table begins with, and the figures that it has to have.
fn rows(said: &str) -> Vec<(&'static str, Vec<String>)> {
    let [sessions, in_sessions] = numbers(said, " answers: all as the model says");
    let [tables, on_tables] = numbers(said, " calls: all as the model says");
    let [_, in_long_runs] = numbers(said, " of them held to the model: all ");
    let [stack] = numbers(said, "stack: at most ");
    let millions = format!("{} million", (in_sessions + on_tables + in_long_runs) / 1_000_000);
    vec![
        ("functions proved", vec![grouped(proved("functions"))]),
        ("faults planted", vec![grouped(edits())]),
        ("assumptions", vec![grouped(proved("axioms"))]),
        ("calls held to", vec![millions, grouped(sessions), grouped(tables)]),
        ("size of the queue's code", vec![grouped(code())]),
        ("stack that a call takes", vec![grouped(stack)]),
    ]
}

fn main() {
    let path = args().nth(1).unwrap_or_else(|| fail("figures FILE, what the tests said"));
    let readme = text_of(README);
    let rows = rows(&text_of(&path));
    for (begins, figures) in &rows {
        let row = readme.lines().find(|line| line.trim_start_matches("| ").starts_with(begins));
        let row = row.unwrap_or_else(|| fail(format!("{README} has no row `{begins}`")));
        // A comma stands in a number or ends a part of the sentence.
        let words = format!("{} ", row.replace(", ", " "));
        if !figures.iter().all(|figure| words.contains(&format!(" {figure} "))) {
            fail(format!("{README}: measured {}, and the row says: {row}", figures.join(", ")));
        }
    }
    println!("{} rows of figures in the README: all are as measured", rows.len());
}
