//! Holds the tables of frames in `docs/SESSION.md` to the widths that the slow model has from the documents: whoever writes or reads
//! lines by the page has to find every kind there, with its fields and how many digits a line has.
use std::collections::BTreeMap;
use std::fs;
use tests::model::session::{widths_in, widths_out};
use tests::program::end;

const PAGE: &str = "docs/SESSION.md";

/// A row with four cells: a kind, its name, its fields with their widths in brackets, and, of a line that comes in, its digits.
fn row(line: &str) -> Option<(u64, (Vec<usize>, String))> {
    let cells: Vec<&str> = line.split('|').map(str::trim).collect();
    let [_, kind, _, fields, last, _] = cells[..] else { return None };
    let widths = fields.split('(').skip(1).filter_map(|part| part.split(')').next()?.parse().ok());
    Some((u64::from_str_radix(kind, 16).ok()?, (widths.collect(), last.into())))
}

/// What is not as the model has it of a kind.
fn fault(kind: u64, rows: &BTreeMap<u64, (Vec<usize>, String)>) -> Option<String> {
    let expected = widths_in(kind).or(widths_out(kind));
    let came = rows.get(&kind);
    let digits = widths_in(kind).map(|widths| (2 + 2 * widths.iter().sum::<usize>()).to_string());
    let is_same = came.map(|(widths, _)| &widths[..]) == expected
        && digits.is_none_or(|digits| came.is_some_and(|(_, last)| *last == digits));
    (!is_same).then(|| format!("{PAGE}, frame {kind:02X}: expected {expected:?}, came {came:?}"))
}

fn main() {
    let page = fs::read_to_string(PAGE).expect("a page of the repository");
    let rows: BTreeMap<u64, (Vec<usize>, String)> = page.lines().filter_map(row).collect();
    end((0..=255).filter_map(|kind| fault(kind, &rows)).collect());
    println!("{} frames in {PAGE}: all with the fields that the model has", rows.len());
}
