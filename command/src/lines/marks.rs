//! The marks of the week's hours, open or closed, as frames and words have them.
use std::fmt::Write;

/// A week has so many hours, and their marks take so many bytes.
pub const HOURS: usize = 168;
pub const BYTES: usize = HOURS / 8;

/// A mark an hour: "first hour in the highest bit, 1 meaning open".
#[derive(Clone, Copy, Debug, PartialEq, Eq)]
pub struct Marks([u8; BYTES]);

/// Hours behind each other, from the first to the last.
type Range = (usize, usize);

impl Marks {
    pub const ALL_OPEN: Marks = Marks([0xFF; BYTES]);

    /// Those of a frame; what lacks is closed.
    pub fn of_bytes(bytes: &[u8]) -> Marks {
        let mut marks = [0; BYTES];
        marks.iter_mut().zip(bytes).for_each(|(mark, byte)| *mark = *byte);
        Marks(marks)
    }

    fn of(is_open: impl Fn(usize) -> bool) -> Marks {
        let mut marks = [0; BYTES];
        for hour in (0..HOURS).filter(|&hour| is_open(hour)) {
            marks[hour / 8] |= 0x80 >> (hour % 8);
        }
        Marks(marks)
    }

    pub fn is_open(&self, hour: usize) -> bool {
        self.0[hour / 8] & 0x80 >> (hour % 8) != 0
    }

    /// How many hours are open.
    pub fn open(&self) -> usize {
        (0..HOURS).filter(|&hour| self.is_open(hour)).count()
    }

    /// Their digits.
    pub fn line(&self) -> String {
        let mut line = String::new();
        self.0.iter().for_each(|byte| write!(line, "{byte:02X}").expect("a text takes all"));
        line
    }

    /// The hours that are open, or those that are closed, in ranges.
    fn ranges(&self, are_open: bool) -> Vec<Range> {
        let mut ranges: Vec<Range> = vec![];
        for hour in (0..HOURS).filter(|&hour| self.is_open(hour) == are_open) {
            match ranges.last_mut() {
                Some((_, last)) if *last + 1 == hour => *last = hour,
                _ => ranges.push((hour, hour)),
            }
        }
        ranges
    }

    /// The open hours or the closed ones, whichever are the shorter to name, and whether these are the open ones.
    pub fn named(&self) -> (bool, Vec<String>) {
        let named = |are_open: bool| -> Vec<String> { self.ranges(are_open).iter().map(written).collect() };
        let length = |names: &[String]| names.iter().map(|name| name.len() + 1).sum::<usize>();
        let (open, closed) = (named(true), named(false));
        // Where none is open there is no range to name.
        if length(&open) < length(&closed) && !open.is_empty() {
            (true, open)
        } else {
            (false, closed)
        }
    }

    /// What a person writes for them, behind a space; nothing where all hours are open.
    pub fn words(&self) -> String {
        match self.named() {
            (true, open) => format!(" open {}", open.join(",")),
            (false, closed) if closed.is_empty() => String::new(),
            (false, closed) => format!(" closed {}", closed.join(",")),
        }
    }

    /// The marks where the hours that a person has written are open and all others closed, or the other way round.
    pub fn read(hours: &str, are_open: bool) -> Result<Marks, String> {
        let ranges = hours.split(',').map(range).collect::<Result<Vec<Range>, String>>()?;
        let is_named = |hour: usize| ranges.iter().any(|(first, last)| (*first..=*last).contains(&hour));
        Ok(Marks::of(|hour| is_named(hour) == are_open))
    }
}

fn written((first, last): &Range) -> String {
    match first == last {
        true => first.to_string(),
        false => format!("{first}-{last}"),
    }
}

/// The hours that a part of a list names, which is an hour or the first and the last of several.
fn range(part: &str) -> Result<Range, String> {
    let (first, last) = part.split_once('-').unwrap_or((part, part));
    let (first, last) = (hour(first)?, hour(last)?);
    if first > last {
        return Err(format!("expected the first of some hours before their last, not `{first}-{last}`"));
    }
    Ok((first, last))
}

fn hour(word: &str) -> Result<usize, String> {
    let word = word.trim();
    let is_number = !word.is_empty() && word.bytes().all(|byte| byte.is_ascii_digit());
    let hour = word.parse().ok().filter(|&hour| is_number && hour < HOURS);
    // A recorded file may have anything in it, and a terminal obeys some characters.
    hour.ok_or_else(|| format!("expected hours of the week, 0 to {}, as in 6-7,30; `{}` is none", HOURS - 1, word.escape_debug()))
}

#[cfg(test)]
mod tests {
    use super::*;

    #[test]
    fn the_first_hour_is_in_the_highest_bit() {
        let marks = Marks::of(|hour| hour == 0 || hour == 2 || hour == 167);
        assert_eq!(marks.line(), "A00000000000000000000000000000000000000001");
        assert_eq!((marks.is_open(0), marks.is_open(1), marks.is_open(167), marks.open()), (true, false, true, 3));
    }

    #[test]
    fn marks_are_said_by_the_shorter_list() {
        let said = |open: &[usize]| Marks::of(|hour| open.contains(&hour)).words();
        assert_eq!(said(&[0, 2]), " open 0,2");
        assert_eq!(said(&(0..HOURS).filter(|hour| ![6, 7, 30].contains(hour)).collect::<Vec<_>>()), " closed 6-7,30");
        assert_eq!((said(&(0..HOURS).collect::<Vec<_>>()), said(&[])), (String::new(), " closed 0-167".into()));
    }

    #[test]
    fn what_is_said_is_read_back() {
        // Every third hour, every hour but one, one hour, none, and hours behind each other at both ends.
        let tests: [fn(usize) -> bool; 6] = [
            |hour| hour % 3 == 0,
            |hour| hour != 167,
            |hour| hour == 100,
            |_| false,
            |hour| (2..166).contains(&hour),
            |hour| hour % 2 == 1,
        ];
        for marks in tests.map(Marks::of) {
            let words = marks.words();
            let (which, hours) = words.trim().split_once(' ').unwrap();
            assert_eq!(Marks::read(hours, which == "open"), Ok(marks), "{words}");
        }
    }

    #[test]
    fn hours_are_named_one_by_one_or_from_the_first_to_the_last() {
        let read = |hours: &str| Marks::read(hours, false).map(|marks| marks.words());
        assert_eq!(read("6-7,30"), Ok(" closed 6-7,30".into()));
        assert_eq!(read("30, 6 - 7, 6"), Ok(" closed 6-7,30".into()));
        for hours in ["168", "", "1,", "+1", "6 7", "6-", "1-2-3"] {
            assert!(read(hours).is_err_and(|error| error.ends_with("` is none")), "{hours}");
        }
        assert!(read("7-6").is_err_and(|error| error.ends_with("not `7-6`")));
    }

    #[test]
    fn marks_are_those_of_their_bytes() {
        assert_eq!(Marks::of_bytes(&[0xFF; BYTES]), Marks::ALL_OPEN);
        assert_eq!(Marks::of_bytes(&[0xA0]), Marks::of(|hour| hour == 0 || hour == 2));
    }
}
