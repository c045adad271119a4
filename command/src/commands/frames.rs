//! `welsbell frames FILE`: words to frames, for the session program.
use crate::failure::{wrong_line, Failure};
use crate::session::{asked_of, Asked, Language};
use crate::session::watch::input_named;
use std::io::{stdout, Write};
use std::path::Path;

pub fn frames(file: &Path) -> Result<(), Failure> {
    let mut input = input_named(file)?;
    // It is written line by line, so that lines of several writers to one pipe do not mix.
    let mut out = stdout().lock();
    while let Some(line) = input.next()? {
        let wrong = |expected: String| wrong_line(&line, expected);
        match asked_of(&line, Language::Words) {
            Asked::Call(call) => writeln!(out, "{}", call.line())?,
            Asked::Nothing => {}
            Asked::Wrong(expected) => return Err(wrong(expected)),
            Asked::NoFrame(reason) => return Err(wrong(format!("expected words or a frame: {reason}"))),
            Asked::End | Asked::Help => return Err(wrong("expected a call: this is for `welsbell run`".into())),
        }
    }
    out.flush()?;
    Ok(())
}
