//! Why a line was refused as no frame: whatever the command says has to be true of the line.
use crate::checks::numbers;
use crate::list::Turn;

/// Words of a reason, and what has to hold of the line, given the reason's numbers.
type Reason = (&'static str, fn(&Turn, &[u64]) -> bool);

pub const REASONS: [Reason; 10] = [
    ("is empty", |turn, _| turn.line.is_empty()),
    ("carriage return", |turn, _| turn.line.ends_with(b"\r")),
    ("have to be upper case", |turn, _| turn.line.iter().any(|byte| (b'a'..=b'f').contains(byte))),
    ("come in pairs", |turn, numbers| is_length(turn, numbers) && turn.line.len() % 2 == 1),
    ("begins with", |turn, _| !matches!(turn.line, [b'0', b'1'..=b'5', ..])),
    ("this line has", |turn, numbers| is_length(turn, numbers) && turn.line.len() != numbers[1] as usize),
    ("is a space", |turn, numbers| character(turn, numbers) == Some(b' ')),
    ("is no digit", |turn, numbers| character(turn, numbers).is_some_and(|byte| !byte.is_ascii_hexdigit())),
    ("characters or more", |turn, numbers| turn.line.len() as u64 >= numbers[0]),
    ("does not end with a line feed", |turn, _| !turn.is_ended),
];

/// The last number is how many characters the line has.
fn is_length(turn: &Turn, numbers: &[u64]) -> bool {
    numbers.last() == Some(&(turn.line.len() as u64))
}

/// The character that the first number names, counted from 1.
fn character(turn: &Turn, numbers: &[u64]) -> Option<u8> {
    let place = numbers.first()?.checked_sub(1)?;
    turn.line.get(place as usize).copied()
}

/// The words of the reason, if it is true of the line.
pub fn true_reason(said: &str, turn: &Turn) -> Result<&'static str, String> {
    let reason = REASONS.iter().find(|(words, _)| said.contains(words));
    match reason {
        Some((words, holds)) if holds(turn, &numbers(said)) => Ok(words),
        Some(_) => Err(format!("`{said}` is not true")),
        None => Err(format!("`{said}` is a reason that is not known here")),
    }
}
