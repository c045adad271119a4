//! Goes through a recorded session from its first line to its last.
use crate::failure::{wrong_line, Failure};
use crate::session::follow::{Event, Followed};
use crate::lines::frames::{Frame, REFUSED};
use crate::lines::input::Input;
use crate::session::progress::Progress;
use crate::session::{Asked, Language, Session, Turn};
use std::io::Error;
use std::path::Path;

/// What looks on.
pub trait Watcher {
    /// A line and its answers, with the session as it was before them.
    fn turn(&mut self, turn: &Turn, before: &Followed) -> Result<(), Failure>;
    /// What the answers say, with the session as it is behind them.
    fn event(&mut self, event: &Event, after: &Followed);
}

/// The input of this name, in which at least something can be read.
pub fn input_named(file: &Path) -> Result<Input, Failure> {
    let failed = |error: Error| Failure::Failed(format!("{}: {error}", file.display()));
    let mut input = Input::named(file).map_err(failed)?;
    input.begin().map_err(failed)?;
    Ok(input)
}

/// A recorded session: its file, and its language where that is not to be seen from how it begins.
pub struct Recorded<'a> {
    pub file: &'a Path,
    pub language: Option<Language>,
}

/// The last argument says whether a bar may stand at the terminal meanwhile. What is handed back is the session as it ended.
pub fn watch(recorded: &Recorded, watcher: &mut impl Watcher, has_bar: bool) -> Result<Followed, Failure> {
    let mut input = input_named(recorded.file)?;
    let language = match recorded.language {
        Some(language) => language,
        None => Language::of(&mut input)?,
    };
    let mut session = Session::start(input, language)?;
    let mut progress = Progress::new(has_bar);
    let mut followed = Followed::default();
    while let Some(turn) = session.next()? {
        match &turn.asked {
            Asked::Nothing => {}
            Asked::End | Asked::Help => return Err(wrong_line(&turn.line, "expected a call: this is for `welsbell run`")),
            Asked::Wrong(expected) => return Err(wrong_line(&turn.line, expected)),
            Asked::Call(_) | Asked::NoFrame(_) => take(&turn, &mut followed, watcher, &mut progress)?,
        }
        progress.show(&session.input);
    }
    Ok(followed)
}

fn take(turn: &Turn, followed: &mut Followed, watcher: &mut impl Watcher, progress: &mut Progress) -> Result<(), Failure> {
    // Where a session begins, the summary of the one before it may be written to the terminal.
    if turn.is_opened() {
        progress.hide();
    }
    watcher.turn(turn, followed)?;
    let events = match &turn.asked {
        Asked::Call(call) => followed.take(call, &turn.answers),
        _ => turn.answers.iter().map(|answer| refusal(turn, answer)).collect::<Result<_, _>>()?,
    };
    for event in &events {
        watcher.event(event, followed);
    }
    Ok(())
}

/// The refusal of a line that is no frame here. To another version of the program it may be one.
fn refusal(turn: &Turn, answer: &Frame) -> Result<Event, Failure> {
    match answer.kind() {
        REFUSED => Ok(Event::Refused(answer["number"])),
        _ => Err(Failure::Failed(format!("the session program answered line {} with `{}`", turn.line.number, answer.words()))),
    }
}
