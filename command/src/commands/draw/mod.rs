//! `welsbell draw FILE`: a recorded session drawn, as text at the terminal and as a page for a browser. What is drawn is collected
//! first; nothing is drawn while the file is read.
mod collect;
mod drawings;
mod said;
mod terminal;
mod text;

use crate::failure::Failure;
use crate::numbers::{counted, grouped};
use crate::session::watch::{watch, Recorded};
use collect::{Collector, MOST_SESSIONS};
use std::fs;
use std::io::{stdout, Write};
use std::path::Path;

/// What is said before the sessions, where some are not drawn or lines stood before the first.
fn preface(collector: &Collector) -> Option<String> {
    let mut said = vec![];
    if collector.refused > 0 {
        said.push(format!("Refused before the first open: {}.", counted(collector.refused, "line")));
    }
    if collector.sessions > MOST_SESSIONS as u64 {
        said.push(format!("The file has {} sessions; the last {MOST_SESSIONS} are drawn.", grouped(collector.sessions)));
    }
    (!said.is_empty()).then(|| said.join(" "))
}

fn text(collector: &Collector) -> String {
    let width = terminal::width();
    let preface = preface(collector).map(|said| text::wrapped(&said, width));
    let sessions = collector.ended.iter().map(|session| text::text(session, collector.ended.len(), width));
    let parts: Vec<String> = preface.into_iter().chain(sessions).collect();
    parts.join("\n\n")
}

/// A page is written only over a page, since the name of another session file is easily given in its place.
fn is_page(page: &Path, recorded: &Recorded) -> Result<(), Failure> {
    let ending = page.extension().map(|ending| ending.to_string_lossy().to_lowercase());
    let is_named_so = matches!(ending.as_deref(), Some("html" | "htm"));
    let is_same = page.canonicalize().is_ok_and(|page| recorded.file.canonicalize().is_ok_and(|file| file == page));
    let wrong = || Failure::Wrong(format!("`{}`: expected the name of a page, which ends with .html and is not the session", page.display()));
    (is_named_so && !is_same).then_some(()).ok_or_else(wrong)
}

fn write_page(file: &Path, name: &Path, collector: &Collector) -> Result<(), Failure> {
    let page = drawings::page(&file.display().to_string(), preface(collector), &collector.ended);
    fs::write(name, page).map_err(|error| Failure::Failed(format!("{}: {error}", name.display())))
}

pub fn draw(recorded: &Recorded, page: Option<&Path>) -> Result<(), Failure> {
    page.map_or(Ok(()), |page| is_page(page, recorded))?;
    let mut collector = Collector::default();
    let followed = watch(recorded, &mut collector, true)?;
    collector.end(&followed);
    let mut out = stdout().lock();
    if collector.ended.is_empty() {
        writeln!(out, "No open was accepted, so there is nothing to draw.{}", said::refused(collector.refused))?;
    } else {
        writeln!(out, "{}", text(&collector))?;
    }
    match page {
        Some(name) if collector.ended.is_empty() => writeln!(out, "{} is not written.", name.display())?,
        Some(name) => {
            write_page(recorded.file, name, &collector)?;
            writeln!(out, "\nThe page is {}.", name.display())?;
        }
        None => {}
    }
    Ok(())
}
