//! What a person writes: calls in words, by the table of frames.
use crate::lines::frames::{most, Frame, Kind, Value, CALLS};
use crate::lines::marks::Marks;

/// What may follow the words of an open, as a person is told it.
pub const HOURS: [&str; 3] = ["hour SLOTS", "hour SLOTS closed HOURS", "hour SLOTS open HOURS"];

/// The call that a line of words asks for, or what was expected in its place.
pub fn call_of(line: &str) -> Result<Frame, String> {
    let words: Vec<&str> = line.split_whitespace().collect();
    let first = words.first().map(|word| word.to_lowercase());
    let kind = CALLS.iter().find(|kind| first.as_deref() == Some(kind.name()));
    let Some(kind) = kind else {
        let names: Vec<&str> = CALLS.iter().map(Kind::name).collect();
        return Err(format!("expected {} or a frame", names.join(", ")));
    };
    let values = values_of(&words, kind)?;
    Ok(Frame::new(kind, values))
}

/// What a person is told where a call has too few words or too many.
fn expected(kind: &Kind) -> String {
    let form = format!("expected `{}`", kind.form());
    match kind.usual.len() {
        0 => form,
        _ => format!("{form}, or the same with one of these behind it: `{}`", HOURS.join("`, `")),
    }
}

fn values_of(words: &[&str], kind: &'static Kind) -> Result<Vec<Value>, String> {
    let form: Vec<&str> = kind.words.split_whitespace().collect();
    let Some((words, more)) = words.split_at_checked(form.len()) else { return Err(expected(kind)) };
    let mut values = vec![];
    for (word, form) in words.iter().zip(form) {
        match kind.fields.iter().find(|(name, _)| form == format!("{{{name}}}")) {
            Some((name, width)) => values.push(Value::Number(value_of(word, name, *width)?)),
            None if word.eq_ignore_ascii_case(form) => {}
            None => return Err(format!("expected `{}`, and `{}` stands where `{form}` has to", kind.form(), word.escape_debug())),
        }
    }
    match more {
        [] => values.extend(kind.usual),
        _ if kind.usual.is_empty() => return Err(expected(kind)),
        _ => values.extend(hours_of(more, kind)?),
    }
    Ok(values)
}

/// The slots per hour and the marks that words behind an open ask for.
fn hours_of(words: &[&str], open: &Kind) -> Result<[Value; 2], String> {
    let lower: Vec<String> = words.iter().map(|word| word.to_lowercase()).collect();
    let lower: Vec<&str> = lower.iter().map(String::as_str).collect();
    let are_open = match lower[..] {
        ["hour", _] => None,
        ["hour", _, which @ ("open" | "closed"), _, ..] => Some(which == "open"),
        _ => return Err(expected(open)),
    };
    let slots = value_of(words[1], "hour", open.width("hour"))?;
    let marks = are_open.map_or(Ok(Marks::ALL_OPEN), |are_open| Marks::read(&words[3..].join(" "), are_open))?;
    Ok([Value::Number(slots), Value::Marks(marks)])
}

/// Whether it is decimal digits, with a comma before each three of them or with none.
fn is_number(word: &str) -> bool {
    let mut groups = word.split(',');
    let first = groups.next().unwrap_or_default();
    let are_digits = word.bytes().all(|byte| byte.is_ascii_digit() || byte == b',');
    let has_groups = word.contains(',');
    are_digits && !first.is_empty() && (first.len() <= 3 || !has_groups) && groups.all(|group| group.len() == 3)
}

fn value_of(word: &str, name: &str, width: usize) -> Result<u64, String> {
    if !is_number(word) {
        // A recorded file may have anything in it, and a terminal obeys some characters.
        return Err(format!("expected a number for {name}, not `{}`", word.escape_debug()));
    }
    let value = word.replace(',', "").parse().ok().filter(|&value| value <= most(width));
    value.ok_or_else(|| format!("{word} does not fit in {name}, whose field has {width} bytes"))
}

/// Whether a line begins as a line of words does, or is a comment.
pub fn are_words(line: &str) -> bool {
    let first = line.split_whitespace().next().unwrap_or_default();
    first.starts_with('#') || CALLS.iter().any(|kind| first.eq_ignore_ascii_case(kind.name()))
}

#[cfg(test)]
mod tests {
    use super::*;

    const OPEN: &str = "open clients 3 period 1,000 records 16";

    /// The digits behind the waiting records of an open.
    fn hours(words: &str) -> Result<String, String> {
        call_of(&format!("{OPEN}{words}")).map(|open| open.line()[18..].to_string())
    }

    #[test]
    fn an_open_without_hours_has_all_of_them_open() {
        assert_eq!(hours("").unwrap(), format!("00000001{}", "F".repeat(42)));
        assert_eq!(hours(" hour 360").unwrap(), format!("00000168{}", "F".repeat(42)));
    }

    #[test]
    fn hours_are_open_or_closed() {
        assert_eq!(hours(" hour 2 open 0,2").unwrap(), format!("00000002A{}", "0".repeat(41)));
        assert_eq!(hours(" HOUR 2 Closed 1, 3-167").unwrap(), format!("00000002A{}", "0".repeat(41)));
    }

    /// The program decides, where a frame can carry it.
    #[test]
    fn what_a_frame_can_carry_is_sent_on() {
        assert_eq!(hours(" hour 0 closed 0-167").unwrap(), "0".repeat(50));
        assert_eq!(hours(" hour 4,294,967,295").unwrap(), "F".repeat(50));
    }

    #[test]
    fn what_is_wrong_is_named() {
        for (words, said) in [
            (" hour", "or the same with one of these behind it: `hour SLOTS`, `hour SLOTS closed HOURS`, `hour SLOTS open HOURS`"),
            (" hours 2", "or the same with one of these behind it: `hour SLOTS`"),
            (" hour 2 closed", "or the same with one of these behind it: `hour SLOTS`"),
            (" hour 2 shut 3", "or the same with one of these behind it: `hour SLOTS`"),
            (" closed 3", "or the same with one of these behind it: `hour SLOTS`"),
            (" hour 4294967296", "4294967296 does not fit in hour, whose field has 4 bytes"),
            (" hour two", "expected a number for hour, not `two`"),
            (" hour 2 closed 168", "expected hours of the week, 0 to 167, as in 6-7,30; `168` is none"),
            (" hour 2 closed 3 4", "`3 4` is none"),
        ] {
            assert!(hours(words).is_err_and(|error| error.contains(said)), "{words}");
        }
        assert_eq!(call_of("tick 3").err(), Some("expected `tick`".into()));
    }
}
