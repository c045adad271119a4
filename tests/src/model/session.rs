//! "Session lines": bytes in, bytes out.
use super::calls::{Answer, Call, CHART, CLOSED, DROPPED, IDLE, KEPT, OPENED, REFUSED, REPORT, SERVED};
use super::chart::segments;
use super::hours::Hours;
use super::tables::{Queue, Setup, RECORDS};
use super::Fault;

pub const SEGMENT: u64 = 0x87;

// The widths in bytes of the values that follow a kind.
type Widths = fn(u64) -> Option<&'static [usize]>;

// The bytes of the marks.
const MARKS: usize = 21;

// "Kinds in: 01 open, clients (2), period (4), waiting records (2); 02 submit, client (2), deadline (8); 03 tick; 04 report,
// client (2); 05 chart." Document 02: open's "frame carries them after the waiting records, as 4 bytes and 21 bytes".
pub fn widths_in(kind: u64) -> Option<&'static [usize]> {
    match kind {
        0x01 => Some(&[2, 4, 2, 4, MARKS]),
        0x02 => Some(&[2, 8]),
        0x03 => Some(&[]),
        0x04 => Some(&[2]),
        0x05 => Some(&[]),
        _ => None,
    }
}

// "Kinds out: 81 opened; 82 kept, number (8), place (2); 83 dropped, new number (8), victim (8), victim's client (2); 84
// served, slot (8), number (8), client (2); 85 idle, slot (8); 86 report, client (2), submitted (4), served (4), dropped (4),
// waiting (2); 87 segment, left (8), right (8), one line each from the left, then 88, segment count (2); FF refusal, number
// (1)." Document 02: "Frames 82 and 83 end with" the shift, "in 2 bytes"; "89 with the slot (8)".
pub fn widths_out(kind: u64) -> Option<&'static [usize]> {
    match kind {
        OPENED => Some(&[]),
        KEPT => Some(&[8, 2, 2]),
        DROPPED => Some(&[8, 8, 2, 2]),
        SERVED => Some(&[8, 8, 2]),
        IDLE => Some(&[8]),
        REPORT => Some(&[2, 4, 4, 4, 2]),
        SEGMENT => Some(&[8, 8]),
        CHART => Some(&[2]),
        CLOSED => Some(&[8]),
        REFUSED => Some(&[1]),
        _ => None,
    }
}

// "upper-case hexadecimal digits"
fn digit(character: u8) -> Option<u64> {
    match character {
        b'0'..=b'9' => Some(u64::from(character - b'0')),
        b'A'..=b'F' => Some(u64::from(character - b'A') + 10),
        _ => None,
    }
}

// "pairs of upper-case hexadecimal digits": the bytes that they are
fn bytes_of(line: &[u8]) -> Option<Vec<u64>> {
    let pair = |pair: &[u8]| match *pair {
        [high, low] => Some(16 * digit(high)? + digit(low)?),
        _ => None,
    };
    line.chunks(2).map(pair).collect()
}

// The kind and the values of a frame. "An empty line, an unknown kind, a wrong length" is none. "A line with more digits than
// the longest frame whose values are in bounds" has a wrong length too. The marks are given byte by byte.
pub fn read(line: &[u8], widths: Widths) -> Option<Vec<u64>> {
    let bytes = bytes_of(line)?;
    let (&kind, mut rest) = bytes.split_first()?;
    let mut frame = vec![kind];
    for &width in widths(kind)? {
        let (value, behind) = rest.split_at_checked(width)?;
        if width == MARKS {
            frame.extend(value);
        } else {
            // "Numbers are big-endian"
            frame.push(value.iter().fold(0, |number, byte| 256 * number + byte));
        }
        rest = behind;
    }
    rest.is_empty().then_some(frame)
}

// An answer as a line: two digits a byte, and a line feed.
fn line_of(answer: &Answer) -> String {
    let widths = widths_out(answer[0]).unwrap_or_default();
    let mut line = format!("{:02X}", answer[0]);
    for (value, width) in answer[1..].iter().zip(widths) {
        line += &format!("{value:0digits$X}", digits = 2 * width);
    }
    line + "\n"
}

// The call that a frame asks for. A chart's output has as many entries as a waiting table can have records.
pub fn call_of(frame: &[u64]) -> Option<Call> {
    match *frame {
        [0x01, clients, period, _, slots_per_hour, ref marks @ ..] => open_of(clients, period, slots_per_hour, marks),
        [0x02, client, deadline] => Some(Call::Submit { client, deadline }),
        [0x03] => Some(Call::Tick),
        [0x04, client] => Some(Call::Report { client }),
        [0x05] => Some(Call::Chart { entries: *RECORDS.end() }),
        _ => None,
    }
}

fn open_of(clients: u64, period: u64, slots_per_hour: u64, marks: &[u64]) -> Option<Call> {
    let bytes: Vec<u8> = marks.iter().map(|&byte| byte as u8).collect();
    let setup = Setup {
        clients,
        period,
        slots_per_hour,
    };
    let hours = Hours {
        marks: bytes.try_into().ok()?,
    };
    Some(Call::Open { setup, hours })
}

// The call that a line asks for, with the last line that was printed for it as its answer. What is no frame is no call.
pub fn call_and_answer(line: &[u8], printed: &[u8]) -> Option<(Call, Answer)> {
    let last = printed.split(|&byte| byte == b'\n').rev().nth(1)?;
    Some((call_of(&read(line, widths_in)?)?, read(last, widths_out)?))
}

// "Before an accepted open the two tables have no records"
struct Session {
    queue: Queue,
}

impl Session {
    fn new(fault: Fault) -> Session {
        Session {
            queue: Queue::zero(0, 0, fault),
        }
    }

    // What is answered to a line, which is given without its line feed.
    fn answer(&mut self, line: &[u8]) -> Vec<Answer> {
        let frame = read(line, widths_in).unwrap_or_default();
        match call_of(&frame) {
            Some(open @ Call::Open { setup, .. }) => vec![self.open(&open, setup.clients, frame[3])],
            Some(chart @ Call::Chart { .. }) => self.chart(&chart),
            Some(call) => vec![self.queue.make(&call, &mut [])],
            // "A session line is no frame as described below."
            None => vec![vec![REFUSED, 1]],
        }
    }

    // "reserves 2,048 waiting records once and lends the first part that open names, and of 256 client records as many as open
    // names clients; an open naming more waiting records gets refusal 4 in its place. An accepted open starts a new session."
    fn open(&mut self, open: &Call, clients: u64, records: u64) -> Answer {
        let mut lent = Queue::zero(records as usize, clients as usize, self.queue.fault);
        let answer = lent.make(open, &mut []);
        if answer[0] == OPENED {
            self.queue = lent;
        }
        answer
    }

    // "87 segment, left (8), right (8), one line each from the left, then 88, segment count (2)"
    fn chart(&mut self, chart: &Call) -> Vec<Answer> {
        let mut output = vec![0; *RECORDS.end()];
        let answer = self.queue.make(chart, &mut output);
        if answer[0] == REFUSED {
            return vec![answer];
        }
        let segments = segments(self.queue.week(), &output[..answer[1] as usize]);
        let count = vec![CHART, segments.len() as u64];
        let lines = segments.into_iter().map(|(left, right)| vec![SEGMENT, left, right]);
        lines.chain([count]).collect()
    }
}

// A line of the input, without its line feed, and what is printed for it.
pub struct Answered<'a> {
    pub line: &'a [u8],
    pub printed: String,
}

// "One frame a line: ..., then a line feed (byte 0A)." "a last line without its line feed gets refusal 1." "Empty input prints
// nothing."
pub fn session(input: &[u8], fault: Fault) -> Vec<Answered<'_>> {
    let mut session = Session::new(fault);
    let lines = input.split_inclusive(|&byte| byte == b'\n');
    let answered = lines.map(|line| {
        let (line, answers) = match line.strip_suffix(b"\n") {
            Some(line) => (line, session.answer(line)),
            None => (line, vec![vec![REFUSED, 1]]),
        };
        Answered {
            line,
            printed: answers.iter().map(line_of).collect(),
        }
    });
    answered.collect()
}
