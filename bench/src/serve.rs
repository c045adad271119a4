//! The session program by hand, over calls by hand. A part of the input comes into a buffer, its frames are read where they
//! lie, and the answers go into another, which is written when the part is answered, or when it is full.
use crate::by_hand::calls::Calls;
use crate::by_hand::lent::{refuse, Lent};
use crate::by_hand::slots::are_all_open;
use crate::by_hand::slots::week::Week;
use std::io::{self, Read, Write};
use tests::tables::*;

pub const SEGMENT: u64 = 0x87;

// With their line feeds: an open's frame, and the answer of a drop.
const LONGEST_FRAME: usize = 69;
const LONGEST_ANSWER: usize = 43;

const INPUT: usize = 65_536;
const OUTPUT: usize = 131_072;

const CHARACTERS: &[u8; 16] = b"0123456789ABCDEF";
const NO_DIGIT: u8 = 255;
const DIGITS: [u8; 256] = digits();
const PAIRS: [[u8; 2]; 256] = pairs();

// Of each character its value.
const fn digits() -> [u8; 256] {
    let mut values = [NO_DIGIT; 256];
    let mut value = 0;
    while value < 16 {
        values[CHARACTERS[value] as usize] = value as u8;
        value += 1;
    }
    values
}

// Of each byte its two characters.
const fn pairs() -> [[u8; 2]; 256] {
    let mut pairs = [[0; 2]; 256];
    let mut byte = 0;
    while byte < 256 {
        pairs[byte] = [CHARACTERS[byte >> 4], CHARACTERS[byte & 15]];
        byte += 1;
    }
    pairs
}

enum Frame {
    Open { setup: Setup, marks: Hours, records: u64 },
    Submit { client: u64, deadline: u64 },
    Tick,
    Report { client: u64 },
    Chart,
}

// The first so many characters, if the last of them is a line feed.
#[inline(always)]
fn line<const N: usize>(input: &[u8]) -> Option<&[u8; N]> {
    input.first_chunk().filter(|line: &&[u8; N]| line[N - 1] == b'\n')
}

// What is no digit shows in the bits of all values together.
#[inline(always)]
fn number(digits: &[u8]) -> Option<u64> {
    let (mut number, mut bits) = (0, 0);
    for &character in digits {
        let value = DIGITS[character as usize];
        number = number << 4 | value as u64;
        bits |= value;
    }
    (bits < 16).then_some(number)
}

// Two digits a byte.
fn marks(digits: &[u8; 42]) -> Option<Hours> {
    let mut hours = Hours::default();
    for (byte, pair) in hours.marks.iter_mut().zip(digits.as_chunks::<2>().0) {
        *byte = number(pair)? as u8;
    }
    Some(hours)
}

fn open_frame(line: &[u8; LONGEST_FRAME]) -> Option<Frame> {
    let setup = setup_with(number(&line[2..6])?, number(&line[6..14])?, number(&line[18..26])?);
    Some(Frame::Open {
        setup,
        records: number(&line[14..18])?,
        marks: marks(line[26..].first_chunk()?)?,
    })
}

// The frame that the input begins with, if it does, and how many characters it has with its line feed.
#[inline(always)]
fn frame_at(input: &[u8]) -> Option<(Frame, usize)> {
    let frame = match number(input.first_chunk::<2>()?)? {
        0x01 => {
            let line = line::<LONGEST_FRAME>(input)?;
            (open_frame(line)?, line.len())
        }
        0x02 => {
            let line = line::<23>(input)?;
            let (client, deadline) = (number(&line[2..6])?, number(&line[6..22])?);
            (Frame::Submit { client, deadline }, line.len())
        }
        0x03 => (Frame::Tick, line::<3>(input)?.len()),
        0x04 => {
            let line = line::<7>(input)?;
            let client = number(&line[2..6])?;
            (Frame::Report { client }, line.len())
        }
        0x05 => (Frame::Chart, line::<3>(input)?.len()),
        _ => return None,
    };
    Some(frame)
}

// Answers that are not written yet.
struct Answers {
    characters: Vec<u8>,
    length: usize,
}

impl Answers {
    fn write(&mut self) -> io::Result<()> {
        let written = io::stdout().lock().write_all(&self.characters[..self.length]);
        self.length = 0;
        written
    }

    // One answer: its number, and each value in so many bytes.
    #[inline(always)]
    fn put_line<const N: usize>(&mut self, kind: u64, widths: [usize; N], values: &[u64]) -> io::Result<()> {
        if self.characters.len() - self.length < LONGEST_ANSWER {
            self.write()?;
        }
        let line = &mut self.characters[self.length..][..LONGEST_ANSWER];
        line[..2].copy_from_slice(&PAIRS[kind as u8 as usize]);
        let mut at = 2;
        for (width, value) in widths.into_iter().zip(values) {
            for &byte in &value.to_be_bytes()[8 - width..] {
                line[at..at + 2].copy_from_slice(&PAIRS[byte as usize]);
                at += 2;
            }
        }
        line[at] = b'\n';
        self.length += at + 1;
        Ok(())
    }

    fn put(&mut self, kind: u64, values: &Values) -> io::Result<()> {
        match kind {
            OPENED => self.put_line(kind, [], values),
            KEPT => self.put_line(kind, [8, 2, 2], values),
            DROPPED => self.put_line(kind, [8, 8, 2, 2], values),
            SERVED => self.put_line(kind, [8, 8, 2], values),
            IDLE | CLOSED => self.put_line(kind, [8], values),
            REPORT => self.put_line(kind, [2, 4, 4, 4, 2], values),
            _ => self.put_line(kind, [1], values),
        }
    }

    // One line for each longest run of touching intervals, then their count.
    fn put_chart(&mut self, starts: &[u64], do_touch: impl Fn(&u64, &u64) -> bool) -> io::Result<()> {
        let mut count = 0;
        for run in starts.chunk_by(do_touch) {
            self.put_line(SEGMENT, [8, 8], &[run[0], run[run.len() - 1] + 1])?;
            count += 1;
        }
        self.put_line(CHART, [2], &[count])
    }
}

// The tables of the largest size, how many waiting records the last accepted open named, where a chart goes, and the answers.
struct Session {
    tables: Tables,
    records: usize,
    starts: Vec<u64>,
    answers: Answers,
    // the rest of a line that is longer than any frame is to come
    is_past: bool,
}

impl Session {
    fn new() -> Session {
        let mut tables = Tables::zero(head(MOST_CLIENTS as u64, 0, 0, 0, 0), MOST_RECORDS);
        tables.head = Head::default();
        Session {
            tables,
            records: 0,
            starts: vec![0; MOST_RECORDS],
            answers: Answers {
                characters: vec![0; OUTPUT],
                length: 0,
            },
            is_past: false,
        }
    }

    // Before an accepted open the tables have no records, and are not lent to calls that would trust them.
    fn answer<Q: Calls>(&mut self, frame: Frame) -> io::Result<()> {
        let mut values = [0; 5];
        let clients = self.tables.head.setup.clients as usize;
        let t = &mut Lent::part(&mut self.tables, self.records, clients);
        let kind = match frame {
            Frame::Open { setup, marks, records } => self.open::<Q>(&setup, &marks, records as usize, &mut values),
            _ if self.records == 0 => refuse(&mut values, 4),
            Frame::Submit { client, deadline } => Q::submit(t, client, deadline, &mut values),
            Frame::Tick => Q::tick(t, &mut values),
            Frame::Report { client } => Q::report(t, client, &mut values),
            Frame::Chart => match Q::chart(t, &mut self.starts, &mut values) {
                CHART => return self.put_chart(values[0] as usize),
                refused => refused,
            },
        };
        self.answers.put(kind, &values)
    }

    // An open that names more than is reserved gets none, and is refused for that.
    fn open<Q: Calls>(&mut self, setup: &Setup, marks: &Hours, records: usize, values: &mut Values) -> u64 {
        let lent_records = if records <= MOST_RECORDS { records } else { 0 };
        let lent_clients = if setup.clients <= MOST_CLIENTS as u64 {
            setup.clients
        } else {
            0
        };
        let t = &mut Lent::part(&mut self.tables, lent_records, lent_clients as usize);
        let kind = Q::open(t, setup, marks, values);
        if kind == OPENED {
            self.records = records;
        }
        kind
    }

    // Two intervals touch where no open slot lies between them; neighbours do in any hours.
    fn put_chart(&mut self, count: usize) -> io::Result<()> {
        let (Tables { head, hours, .. }, starts) = (&self.tables, &self.starts[..count]);
        if are_all_open(hours) {
            return self.answers.put_chart(starts, |a, b| a + 1 == *b);
        }
        let week = Week::new(head, hours);
        let do_touch = |a: &u64, b: &u64| a + 1 == *b || week.open_before(a + 1) == week.open_before(*b);
        self.answers.put_chart(starts, do_touch)
    }

    fn refuse_line(&mut self) -> io::Result<()> {
        self.answers.put(REFUSED, &[1; 5])
    }

    // Answers all whole lines. Gives how many characters are done with: all but a begun line that may still become a frame.
    fn feed<Q: Calls>(&mut self, input: &[u8]) -> io::Result<usize> {
        let mut rest = input;
        loop {
            let frame = if self.is_past { None } else { frame_at(rest) };
            if let Some((frame, length)) = frame {
                rest = &rest[length..];
                self.answer::<Q>(frame)?;
            } else if let Some(end) = rest.iter().position(|&character| character == b'\n') {
                rest = &rest[end + 1..];
                self.is_past = false;
                self.refuse_line()?;
            } else {
                break;
            }
        }
        self.is_past |= rest.len() >= LONGEST_FRAME;
        Ok(if self.is_past { input.len() } else { input.len() - rest.len() })
    }
}

// Ends with the input, which a read that fails ends too, or where nobody reads the answers.
pub fn serve<Q: Calls>() -> io::Result<()> {
    let mut session = Session::new();
    let (mut buffer, mut have) = (vec![0; INPUT], 0);
    let mut input = io::stdin().lock();
    loop {
        let got = input.read(&mut buffer[have..]).unwrap_or(0);
        if got == 0 {
            break;
        }
        have += got;
        let done = session.feed::<Q>(&buffer[..have])?;
        session.answers.write()?;
        buffer.copy_within(done..have, 0);
        have -= done;
    }
    if have > 0 || session.is_past {
        session.refuse_line()?;
    }
    session.answers.write()
}
