//! `welsbell run`: a session in words, answered line by line.
use crate::failure::{wrong_line, Failure};
use crate::session::follow::Followed;
use crate::lines::frames::{Kind, CALLS};
use crate::lines::input::Input;
use crate::lines::words::HOURS;
use crate::said::say;
use crate::session::{Asked, Language, Session, Turn};
use std::io::{stdout, IsTerminal, Write};

const PROMPT: &str = "> ";

/// How a call is written, and below it how with what may follow.
fn forms(kind: &Kind) -> String {
    let more = HOURS.iter().filter(|_| !kind.usual.is_empty()).map(|more| format!("  {} .. {more}\n", kind.name()));
    [format!("  {}\n", kind.form())].into_iter().chain(more).collect()
}

/// What `help` says.
fn help() -> String {
    let forms: String = CALLS.iter().map(forms).collect();
    format!(
        "One call a line:\n{forms}\
         A deadline is a slot counted from the open: a read by 2 has to be served in slot 0 or 1.\n\
         An hour is SLOTS slots, and hour 0 begins with the open. HOURS are hours of the week, 0 to\n\
         167, as in 6-7,30: with `closed` these are closed and all others open, with `open` these\n\
         alone are open, and so again each week. Without HOURS every hour is open.\n\
         Frames are understood too. A line that begins with # is a comment. `quit` ends."
    )
}

pub fn run() -> Result<(), Failure> {
    let input = Input::standard();
    let is_dialogue = input.is_terminal && stdout().is_terminal();
    let mut session = Session::start(input, Language::Words)?;
    let mut followed = Followed::default();
    let mut out = stdout().lock();
    if is_dialogue {
        writeln!(out, "The recorder's read queue. `help` tells what to write.")?;
    }
    loop {
        if is_dialogue {
            write!(out, "{PROMPT}")?;
        }
        out.flush()?;
        let Some(turn) = session.next()? else { return end(&mut out, is_dialogue) };
        match &turn.asked {
            Asked::End => return Ok(()),
            Asked::Wrong(expected) if is_dialogue => writeln!(out, "{expected}; `help` tells more")?,
            Asked::Wrong(expected) => {
                out.flush()?;
                return Err(wrong_line(&turn.line, expected));
            }
            Asked::Nothing => {}
            Asked::Help => writeln!(out, "{}", help())?,
            Asked::Call(_) | Asked::NoFrame(_) => answer(&mut out, &turn, &mut followed)?,
        }
    }
}

fn answer(out: &mut impl Write, turn: &Turn, followed: &mut Followed) -> Result<(), Failure> {
    writeln!(out, "{}", say::answered(turn, followed))?;
    if let Asked::Call(call) = &turn.asked {
        followed.take(call, &turn.answers);
    }
    Ok(())
}

/// At a terminal the input ends in the middle of a line with a prompt.
fn end(out: &mut impl Write, is_dialogue: bool) -> Result<(), Failure> {
    if is_dialogue {
        writeln!(out)?;
    }
    Ok(())
}
