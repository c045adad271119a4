//! The one table of the session's frames: kinds, fields with their widths in bytes, and words. What reads, writes, says or explains
//! a line goes by it, so that a frame with another number in it is a change here. A field is a number of at most 8 bytes, or the marks
//! of the week's hours.
use crate::lines::input::LONGEST;
use crate::lines::marks::{Marks, BYTES};
use crate::numbers::grouped;
use std::fmt::{self, Display, Formatter};
use std::ops::Index;

pub const OPEN: u8 = 0x01;
pub const SUBMIT: u8 = 0x02;
pub const TICK: u8 = 0x03;
pub const REPORT: u8 = 0x04;
pub const CHART: u8 = 0x05;

pub const OPENED: u8 = 0x81;
pub const KEPT: u8 = 0x82;
pub const DROPPED: u8 = 0x83;
pub const SERVED: u8 = 0x84;
pub const IDLE: u8 = 0x85;
pub const REPORTED: u8 = 0x86;
pub const SEGMENT: u8 = 0x87;
pub const CHARTED: u8 = 0x88;
pub const CLOSED: u8 = 0x89;
pub const REFUSED: u8 = 0xFF;

/// A kind of frame. Its words are what a person writes for a call and reads for an answer: a name in braces stands for the value of
/// the field of that name.
#[derive(Debug)]
pub struct Kind {
    pub byte: u8,
    pub fields: &'static [(&'static str, usize)],
    pub words: &'static str,
    /// Words for the last fields, which are left out where these have their usual values.
    pub more: &'static str,
    pub usual: &'static [Value],
}

const fn kind(byte: u8, fields: &'static [(&'static str, usize)], words: &'static str) -> Kind {
    Kind { byte, fields, words, more: "", usual: &[] }
}

pub static CALLS: [Kind; 5] = [
    Kind {
        byte: OPEN,
        fields: &[("clients", 2), ("period", 4), ("records", 2), ("hour", 4), ("marks", BYTES)],
        words: "open clients {clients} period {period} records {records}",
        // The marks have a space before them, where there is something to say of them.
        more: " hour {hour}{marks}",
        // Document 01's setting: every hour is open, and then it is all one how long an hour is.
        usual: &[Value::Number(1), Value::Marks(Marks::ALL_OPEN)],
    },
    kind(SUBMIT, &[("client", 2), ("deadline", 8)], "submit {client} by {deadline}"),
    kind(TICK, &[], "tick"),
    kind(REPORT, &[("client", 2)], "report {client}"),
    kind(CHART, &[], "chart"),
];

pub static ANSWERS: [Kind; 10] = [
    kind(OPENED, &[], "opened"),
    kind(
        KEPT,
        &[("number", 8), ("place", 2), ("shift", 2)],
        "kept: number {number}, at place {place}, shift {shift}",
    ),
    kind(
        DROPPED,
        &[("number", 8), ("victim", 8), ("client", 2), ("shift", 2)],
        "kept: number {number}, shift {shift}; dropped: number {victim} of client {client}",
    ),
    kind(
        SERVED,
        &[("slot", 8), ("number", 8), ("client", 2)],
        "slot {slot}: number {number} of client {client} is served",
    ),
    kind(IDLE, &[("slot", 8)], "slot {slot}: nothing waits"),
    kind(
        REPORTED,
        &[("client", 2), ("submitted", 4), ("served", 4), ("dropped", 4), ("waiting", 2)],
        "client {client}: {submitted} submitted, {served} served, {dropped} dropped, {waiting} waiting",
    ),
    kind(SEGMENT, &[("left", 8), ("right", 8)], "[{left}, {right}]"),
    kind(CHARTED, &[("count", 2)], "segments: {count}"),
    kind(CLOSED, &[("slot", 8)], "slot {slot}: closed"),
    kind(REFUSED, &[("number", 1)], "refused, {number}"),
];

impl Kind {
    /// The first of its words, by which it is called.
    pub fn name(&self) -> &'static str {
        self.words.split([' ', ':', ',']).next().unwrap_or(self.words)
    }

    /// How many digits its frame has.
    pub fn digits(&self) -> usize {
        2 + self.fields.iter().map(|(_, width)| 2 * width).sum::<usize>()
    }

    /// How many bytes its field of this name has.
    pub fn width(&self, name: &str) -> usize {
        let field = self.fields.iter().find(|(field, _)| *field == name);
        field.map_or(0, |(_, width)| *width)
    }

    /// Its words with the fields' names in capitals, as a person is told what to write.
    pub fn form(&self) -> String {
        let mut form = self.words.to_string();
        for (name, _) in self.fields {
            form = form.replace(&format!("{{{name}}}"), &name.to_uppercase());
        }
        form
    }
}

/// The largest value of a field of so many bytes.
pub fn most(width: usize) -> u64 {
    u64::MAX >> (64 - 8 * width)
}

/// The value of a field.
#[derive(Clone, Copy, Debug, PartialEq, Eq)]
pub enum Value {
    Number(u64),
    Marks(Marks),
}

impl Value {
    /// Only marks have more bytes than a number.
    fn of_bytes(bytes: &[u8]) -> Value {
        match bytes.len() {
            BYTES => Value::Marks(Marks::of_bytes(bytes)),
            _ => Value::Number(bytes.iter().fold(0, |value, &byte| value << 8 | u64::from(byte))),
        }
    }

    /// Its digits in a field of so many bytes.
    fn line(&self, width: usize) -> String {
        match self {
            Value::Number(number) => format!("{number:0digits$X}", digits = 2 * width),
            Value::Marks(marks) => marks.line(),
        }
    }

    fn words(&self) -> String {
        match self {
            Value::Number(number) => number.to_string(),
            Value::Marks(marks) => marks.words(),
        }
    }
}

/// A frame: its kind and a value for each field.
#[derive(Clone, Debug)]
pub struct Frame {
    kind: &'static Kind,
    values: Vec<Value>,
}

impl Index<&str> for Frame {
    type Output = u64;

    fn index(&self, name: &str) -> &u64 {
        match self.value(name) {
            Value::Number(number) => number,
            Value::Marks(_) => panic!("{name} is no number"),
        }
    }
}

impl Frame {
    pub fn new(kind: &'static Kind, values: Vec<Value>) -> Frame {
        Frame { kind, values }
    }

    /// The call of this kind, with these numbers in the order of its fields; the fields behind them have their usual values.
    pub fn call(byte: u8, numbers: &[u64]) -> Frame {
        let kind = CALLS.iter().find(|kind| kind.byte == byte).expect("a kind of call");
        let numbers = numbers.iter().map(|&number| Value::Number(number));
        Frame::new(kind, numbers.chain(kind.usual.iter().copied()).collect())
    }

    fn value(&self, name: &str) -> &Value {
        let place = self.kind.fields.iter().position(|(field, _)| *field == name);
        &self.values[place.expect("a field of this kind of frame")]
    }

    /// The marks of an open.
    pub fn marks(&self) -> Marks {
        match self.value("marks") {
            Value::Marks(marks) => *marks,
            Value::Number(_) => panic!("marks are no number"),
        }
    }

    pub fn kind(&self) -> u8 {
        self.kind.byte
    }

    /// The frame that a line is, which is given without its line feed, or why it is none.
    pub fn read(line: &[u8], kinds: &'static [Kind]) -> Result<Frame, NoFrame> {
        let bytes = bytes_of(line)?;
        let (&byte, rest) = bytes.split_first().ok_or(NoFrame::Empty)?;
        let kind = kinds.iter().find(|kind| kind.byte == byte).ok_or(NoFrame::Kind(byte))?;
        if line.len() != kind.digits() {
            return Err(NoFrame::Length(kind, line.len()));
        }
        let mut rest = rest.iter().copied();
        let field = |(_, width): &(&str, usize)| Value::of_bytes(&rest.by_ref().take(*width).collect::<Vec<u8>>());
        Ok(Frame::new(kind, kind.fields.iter().map(field).collect()))
    }

    /// Its digits, without a line feed.
    pub fn line(&self) -> String {
        let mut line = format!("{:02X}", self.kind.byte);
        for (value, (_, width)) in self.values.iter().zip(self.kind.fields) {
            line += &value.line(*width);
        }
        line
    }

    /// Its words with its values in them.
    pub fn words(&self) -> String {
        let mut words = self.kind.words.to_string();
        if !self.values.ends_with(self.kind.usual) {
            words += self.kind.more;
        }
        for (value, (name, _)) in self.values.iter().zip(self.kind.fields) {
            words = words.replace(&format!("{{{name}}}"), &value.words());
        }
        words
    }
}

/// The bytes whose digits a line is.
fn bytes_of(line: &[u8]) -> Result<Vec<u8>, NoFrame> {
    if line.len() >= LONGEST {
        return Err(NoFrame::TooLong);
    }
    if line.ends_with(b"\r") {
        return Err(NoFrame::CarriageReturn);
    }
    if let Some(place) = line.iter().position(|byte| !byte.is_ascii_hexdigit()) {
        return Err(NoFrame::Character(place, line[place]));
    }
    if line.iter().any(u8::is_ascii_lowercase) {
        return Err(NoFrame::LowerCase);
    }
    if !line.len().is_multiple_of(2) {
        return Err(NoFrame::HalfPair(line.len()));
    }
    let digit = |byte: u8| (byte as char).to_digit(16).unwrap_or_default() as u8;
    Ok(line.chunks(2).map(|pair| digit(pair[0]) << 4 | digit(pair[1])).collect())
}

/// Why a line is no frame. The session program only says refusal 1.
#[derive(Clone, Debug)]
pub enum NoFrame {
    Empty,
    CarriageReturn,
    LowerCase,
    Character(usize, u8),
    HalfPair(usize),
    Kind(u8),
    Length(&'static Kind, usize),
    TooLong,
    NoLineFeed,
}

impl Display for NoFrame {
    fn fmt(&self, f: &mut Formatter) -> fmt::Result {
        match *self {
            NoFrame::Empty => write!(f, "the line is empty"),
            NoFrame::CarriageReturn => {
                write!(f, "the line ends with a carriage return (0D), and lines end with a line feed (0A) alone")
            }
            NoFrame::LowerCase => write!(f, "the digits A to F have to be upper case"),
            NoFrame::Character(place, byte) if byte.is_ascii_graphic() => {
                write!(f, "character {}, `{}`, is no digit 0 to 9 or A to F", place + 1, byte as char)
            }
            NoFrame::Character(place, b' ') => write!(f, "character {} is a space, and frames have none", place + 1),
            NoFrame::Character(place, byte) => write!(f, "character {}, byte {byte:02X}, is no digit 0 to 9 or A to F", place + 1),
            NoFrame::HalfPair(digits) => write!(f, "digits come in pairs, and these are {}", grouped(digits as u64)),
            NoFrame::Kind(byte) => {
                let kinds: Vec<String> = CALLS.iter().map(|kind| format!("{:02X} {}", kind.byte, kind.name())).collect();
                write!(f, "no frame begins with {byte:02X}: {}", kinds.join(", "))
            }
            NoFrame::Length(kind, digits) => {
                let fields = kind.fields.iter().map(|(name, width)| format!(", {name} in {}", 2 * width));
                let fields: String = fields.collect();
                write!(
                    f,
                    "a frame {:02X}, {}, has {} digits ({:02X}{fields}), and this line has {}",
                    kind.byte,
                    kind.name(),
                    kind.digits(),
                    kind.byte,
                    grouped(digits as u64)
                )
            }
            NoFrame::TooLong => write!(f, "the line has {} characters or more, and no frame is that long", grouped(LONGEST as u64)),
            NoFrame::NoLineFeed => write!(f, "the last line does not end with a line feed"),
        }
    }
}

#[cfg(test)]
mod tests {
    use super::*;

    /// The names that stand in its words.
    fn named(kind: &Kind) -> Vec<&str> {
        let parts = [kind.words, kind.more].into_iter().flat_map(|words| words.split('{').skip(1));
        parts.filter_map(|part| part.split('}').next()).collect()
    }

    fn fields(kind: &Kind) -> Vec<&str> {
        kind.fields.iter().map(|(name, _)| *name).collect()
    }

    /// Words are read in their order, and values stand in that of the fields.
    #[test]
    fn fields_of_calls_stand_in_the_words_in_their_order() {
        CALLS.iter().for_each(|kind| assert_eq!(named(kind), fields(kind)));
    }

    /// Answers are only written, in whichever order they read well.
    #[test]
    fn each_field_of_an_answer_stands_in_its_words() {
        let sorted = |mut names: Vec<&'static str>| {
            names.sort_unstable();
            names
        };
        ANSWERS.iter().for_each(|kind| assert_eq!(sorted(named(kind)), sorted(fields(kind))));
    }

    const SMALL: &str = "0100010000000A000800000002A00000000000000000000000000000000000000000";

    #[test]
    fn an_open_has_its_hours() {
        let open = Frame::read(SMALL.as_bytes(), &CALLS).unwrap();
        assert_eq!((open["clients"], open["period"], open["records"], open["hour"]), (1, 10, 8, 2));
        assert_eq!(open.marks(), Marks::read("0,2", true).unwrap());
        assert_eq!((open.words().as_str(), open.line().as_str()), ("open clients 1 period 10 records 8 hour 2 open 0,2", SMALL));
    }

    #[test]
    fn usual_hours_are_not_said() {
        let said = |hours: &str| Frame::read(format!("010001000000640008{hours}").as_bytes(), &CALLS).unwrap().words();
        let open = "FF".repeat(BYTES);
        assert_eq!(said(&format!("00000001{open}")), "open clients 1 period 100 records 8");
        assert_eq!(said(&format!("00000168{open}")), "open clients 1 period 100 records 8 hour 360");
        assert_eq!(said(&format!("00000001{}", "00".repeat(BYTES))), "open clients 1 period 100 records 8 hour 1 closed 0-167");
        assert_eq!(Frame::call(OPEN, &[1, 100, 8]).line(), format!("01000100000064000800000001{open}"));
    }

    /// Each number has its field, and the rest have their usual values.
    #[test]
    fn usual_values_are_those_of_the_last_fields() {
        for kind in &CALLS {
            let is_of = |((_, width), value): (&(&str, usize), &Value)| (*width == BYTES) == matches!(value, Value::Marks(_));
            let last = &kind.fields[kind.fields.len() - kind.usual.len()..];
            assert!(last.iter().zip(kind.usual).all(is_of));
            assert!(last.iter().all(|(name, _)| kind.more.contains(&format!("{{{name}}}"))));
        }
    }

    #[test]
    fn no_frame_is_as_long_as_what_is_kept_of_a_line() {
        assert!(CALLS.iter().chain(&ANSWERS).all(|kind| kind.digits() < LONGEST));
    }
}
