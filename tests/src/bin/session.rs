// Holds the session program, whose path is the argument, to "Session lines" of document 01, with the shifts and the inspection hours
// of document 02. What it writes is held byte by byte to what each session expects, which is written out or comes by simple arithmetic.
//
// Refusals 1 to 4, 6, 7, 10 and 13 to 15 are shown. Five cannot be: a session's tables are always sound (5) and its chart has room for
// every waiting record (12); a client has submitted its most (8) only after 2 to the 28th calls, and the last number is given
// (9) and the clock at its end (11) only after 2 to the 48th.
use std::env::{args, current_exe};
use std::fs::{write, File};
use std::io::{self, Read, Write};
use std::os::fd::OwnedFd;
use std::os::unix::net::{UnixDatagram, UnixStream};
use std::os::unix::process::ExitStatusExt;
use std::path::PathBuf;
use std::process::{exit, Child, Command, ExitStatus, Stdio};
use std::thread::{sleep, spawn, JoinHandle};
use std::time::{Duration, Instant};
use tests::frames::{self, Week};

const MOST_PERIOD: u32 = 4_294_967_295;

// The program's buffer has so many characters.
const BUFFER: usize = 65_536;

// What goes in, line by line, and what is to come out for each line.
#[derive(Default)]
struct Session {
    lines: Vec<Vec<u8>>,
    answers: Vec<Vec<u8>>,
}

// What goes in.
impl Session {
    // As it stands, with a line feed or without.
    fn raw(&mut self, bytes: impl AsRef<[u8]>) -> &mut Session {
        self.lines.push(bytes.as_ref().to_vec());
        self.answers.push(vec![]);
        self
    }

    fn line(&mut self, line: impl AsRef<[u8]>) -> &mut Session {
        self.raw([line.as_ref(), b"\n"].concat())
    }

    fn open(&mut self, clients: u16, period: u32, records: u16) -> &mut Session {
        self.line(frames::open(clients, period, records))
    }

    fn open_with(&mut self, clients: u16, period: u32, records: u16, week: &Week) -> &mut Session {
        self.line(frames::open_with(clients, period, records, week))
    }

    fn submit(&mut self, client: u16, deadline: u64) -> &mut Session {
        self.line(frames::submit(client, deadline))
    }

    fn tick(&mut self) -> &mut Session {
        self.line(frames::TICK)
    }

    fn report(&mut self, client: u16) -> &mut Session {
        self.line(frames::report(client))
    }

    fn chart(&mut self) -> &mut Session {
        self.line(frames::CHART)
    }
}

// What is to come out for the last line.
impl Session {
    fn answer(&mut self, line: impl AsRef<[u8]>) {
        if let Some(answer) = self.answers.last_mut() {
            answer.extend(line.as_ref());
            answer.push(b'\n');
        }
    }

    fn opened(&mut self) {
        self.answer("81");
    }

    fn kept(&mut self, number: u64, place: u64, shift: u64) {
        self.answer(format!("82{number:016X}{place:04X}{shift:04X}"));
    }

    fn dropped(&mut self, number: u64, victim: u64, client: u16, shift: u64) {
        self.answer(format!("83{number:016X}{victim:016X}{client:04X}{shift:04X}"));
    }

    fn served(&mut self, slot: u64, number: u64, client: u16) {
        self.answer(format!("84{slot:016X}{number:016X}{client:04X}"));
    }

    fn idle(&mut self, slot: u64) {
        self.answer(format!("85{slot:016X}"));
    }

    fn closed(&mut self, slot: u64) {
        self.answer(format!("89{slot:016X}"));
    }

    // Submitted, served, dropped, waiting.
    fn reported(&mut self, client: u16, [submitted, served, dropped, waiting]: [u32; 4]) {
        self.answer(format!("86{client:04X}{submitted:08X}{served:08X}{dropped:08X}{waiting:04X}"));
    }

    fn drawn(&mut self, segments: &[(u64, u64)]) {
        for (left, right) in segments {
            self.answer(format!("87{left:016X}{right:016X}"));
        }
        self.answer(format!("88{:04X}", segments.len()));
    }

    fn refused(&mut self, number: u8) {
        self.answer(format!("FF{number:02X}"));
    }
}

// "In document 01's cases and session all hours are open; what open takes later is set there so that they stand."
const DOCUMENT_IN: &str = "\
01000200000064000800000001FFFFFFFFFFFFFFFFFFFFFFFFFFFFFFFFFFFFFFFFFF
0200000000000000000001
0200010000000000000002
0200010000000000000001
05
03
040001
";

// "Frames 82 and 83 end with it, in 2 bytes, in document 01's session too."
const DOCUMENT_OUT: &str = "\
81
82000000000000000100000000
82000000000000000200010000
830000000000000003000000000000000300010001
8700000000000000000000000000000002
880001
84000000000000000000000000000000010000
8600010000000200000000000000010001";

fn document(s: &mut Session) {
    s.raw(DOCUMENT_IN).answer(DOCUMENT_OUT);
}

// The document's session, and a line begun behind it.
fn document_and_more(s: &mut Session) {
    document(s);
    s.raw("03").refused(1);
}

fn nothing(_: &mut Session) {}

fn line_feed(s: &mut Session) {
    s.line("").refused(1);
}

fn all_but_open_refused(s: &mut Session, number: u8) {
    s.submit(0, 1).refused(number);
    s.submit(65_535, u64::MAX).refused(number);
    s.tick().refused(number);
    s.report(0).refused(number);
    s.report(65_535).refused(number);
    s.chart().refused(number);
}

fn before_an_open(s: &mut Session) {
    all_but_open_refused(s, 4);
    for line in ["", "0", "00", "7F", "0102", "03 ", "no frame"] {
        s.line(line).refused(1);
    }
    s.open(0, 1, 1).refused(2);
    s.open(1, 0, 1).refused(3);
    s.open(1, 1, 0).refused(4);
    s.open(1, 1, 2_049).refused(4);
    all_but_open_refused(s, 4);
    s.open(1, 1, 1).opened();
    s.tick().idle(0);
}

// An open has the most digits.
const LONGEST: usize = 68;

// Each kind byte with zeros behind it, so many digits in all. Before an open no call does anything.
fn kinds_and_lengths(s: &mut Session) {
    for kind in 0..=255 {
        for digits in (2..=24).chain(LONGEST - 2..=LONGEST + 4) {
            let refusal = match (kind, digits) {
                (0x01, LONGEST) => 2,
                (0x02, 22) | (0x03, 2) | (0x04, 6) | (0x05, 2) => 4,
                _ => 1,
            };
            s.line(format!("{kind:02X}{:0>width$}", "", width = digits - 2))
                .refused(refusal);
        }
    }
}

// Lines of as many digits as an open has, and of one and two digits more and less, the first of which are an open that would be
// accepted: one refusal 1 each, but for the open itself.
fn around_the_longest(s: &mut Session) {
    let open = frames::open(1, 100, 4);
    for digits in LONGEST - 2..=LONGEST + 300 {
        let line: String = open.chars().chain("03".chars().cycle()).take(digits).collect();
        let answered = s.line(line);
        if digits == LONGEST {
            answered.opened();
        } else {
            answered.refused(1);
        }
    }
    s.tick().idle(0);
}

// Frames that would be accepted, a digit or a byte longer or shorter; then the session is as it was.
fn wrong_lengths(s: &mut Session) {
    s.open(2, 100, 4).opened();
    s.submit(1, 3).kept(1, 0, 0);
    let frames = [
        frames::open(1, 9, 1),
        frames::submit(0, 5),
        frames::TICK.into(),
        frames::report(0),
        frames::CHART.into(),
    ];
    for frame in frames {
        for more in ["0", "00", "03"] {
            s.line(format!("{frame}{more}")).refused(1);
        }
        for shorter in [&frame[2..], &frame[1..], &frame[..frame.len() - 1], &frame[..frame.len() - 2]] {
            s.line(shorter).refused(1);
        }
    }
    s.chart().drawn(&[(2, 3)]);
    s.tick().served(0, 1, 1);
}

fn is_digit(byte: u8) -> bool {
    byte.is_ascii_digit() || (b'A'..=b'F').contains(&byte)
}

// Every byte that is no digit in each place of a submit, which a line feed makes two lines.
fn every_byte(s: &mut Session) {
    s.open(1, 100, 4).opened();
    for place in 0..22 {
        for byte in (0..=255).filter(|&byte| !is_digit(byte)) {
            let mut line = frames::submit(0, 1).into_bytes();
            line[place] = byte;
            s.line(line).refused(1);
            if byte == b'\n' {
                s.refused(1);
            }
        }
    }
    s.tick().idle(0);
}

fn other_characters(s: &mut Session) {
    s.open(1, 100, 4).opened();
    let lines = [
        "03\r",
        "\r",
        "\r03",
        "03 ",
        " 03",
        "0 3",
        " ",
        "03\t",
        "03\0",
        "\0",
        "\0\0",
        "0x03",
        "+3",
        "-3",
        "3",
        "0O",
        "0G",
        "0@",
        "0/",
        "0:",
        "\u{FF10}\u{FF13}",
        "\u{FEFF}03",
        "03\u{85}",
        "\u{7F}",
        "03;05",
        "03\x0B",
        "03\x0C",
    ];
    for line in lines {
        s.line(line).refused(1);
    }
    for bytes in [[0xB0, 0xB3], [0xFF, 0xFF], [0x80, 0x83], [0x00, 0x03]] {
        s.line(bytes).refused(1);
    }
    // the deadline 10 in lower case, then in upper case
    s.line("020000000000000000000a").refused(1);
    s.line("020000000000000000000A").kept(1, 0, 0);
    s.tick().served(0, 1, 0);
}

fn odd_digits(s: &mut Session) {
    s.open(1, 100, 4).opened();
    for digits in (1..=89).step_by(2) {
        s.line("1".repeat(digits)).refused(1);
        s.line(&"03".repeat(45)[..digits]).refused(1);
    }
    s.tick().idle(0);
}

// So many characters; from any other one on they would be ticks, and the last two are one however the line is cut.
fn ticks_in_one(characters: usize) -> String {
    "03".repeat(characters.div_ceil(2)).split_off(characters % 2)
}

fn lines_a_little_too_long(s: &mut Session) {
    s.open(1, 1_000, 4).opened();
    for (slot, characters) in (0..).zip(23..=LONGEST + 40) {
        s.line(ticks_in_one(characters)).refused(1);
        s.tick().idle(slot);
    }
}

fn long_lines(s: &mut Session) {
    s.open(1, 1_000_000, 4).opened();
    let around = |n: usize| n - LONGEST - 3..=n + 2;
    let lengths = (23..=LONGEST + 50)
        .chain([100, 4_095, 4_096, 8_192])
        .chain(around(BUFFER))
        .chain(around(2 * BUFFER));
    for (slot, characters) in (0..).zip(lengths.chain([100_000, 5_000_000, LONGEST + 1, LONGEST + 2])) {
        s.line(ticks_in_one(characters)).refused(1);
        s.tick().idle(slot);
    }
    s.line(vec![0; 100_000]).refused(1);
    s.line(vec![b'\r'; 100_000]).refused(1);
    s.report(0).reported(0, [0; 4]);
}

// So many characters without a line feed, behind a whole session and alone.
fn no_line_feed(characters: usize) -> [Session; 2] {
    let mut behind = Session::default();
    document(&mut behind);
    behind.raw(ticks_in_one(characters)).refused(1);
    let mut alone = Session::default();
    alone.raw(ticks_in_one(characters)).refused(1);
    [behind, alone]
}

// Frames, and lines that are a little too long, behind so many characters.
fn behind(characters: usize, fill: fn(&mut Session, usize)) -> Session {
    let mut s = Session::default();
    let open = frames::open(1, 100, 4);
    s.line(&open).opened();
    fill(&mut s, characters - open.len() - 1);
    s.submit(0, 5).kept(1, 0, 0);
    s.line(ticks_in_one(LONGEST + 1)).refused(1);
    s.submit(0, 9).kept(2, 1, 0);
    s.line(ticks_in_one(LONGEST + 2)).refused(1);
    s.tick().served(0, 1, 0);
    s.line(ticks_in_one(LONGEST + 38)).refused(1);
    s.open(0, 1, 1).refused(2);
    s.report(0).reported(0, [2, 1, 0, 1]);
    s
}

// How many characters the lines of `behind` have.
const BEHIND: usize = 23 + (LONGEST + 2) + 23 + (LONGEST + 3) + 3 + (LONGEST + 39) + (LONGEST + 1) + 7;

fn one_line(s: &mut Session, characters: usize) {
    s.line(ticks_in_one(characters - 1)).refused(1);
}

fn empty_lines(s: &mut Session, characters: usize) {
    s.raw("\n".repeat(characters)).answer(vec!["FF01"; characters].join("\n"));
}

fn open_bounds(s: &mut Session) {
    for (clients, period, records) in [(1, 1, 1), (256, MOST_PERIOD, 2_048), (1, MOST_PERIOD, 2_048), (256, 1, 1)] {
        s.open(clients, period, records).opened();
        s.tick().idle(0);
        s.report(clients - 1).reported(clients - 1, [0; 4]);
        s.report(clients).refused(6);
    }
}

fn refused_opens(s: &mut Session) {
    for clients in [0, 257, 258, 512, 65_535] {
        s.open(clients, 0, 0).refused(2);
        s.open(clients, 100, 8).refused(2);
    }
    for clients in [1, 2, 256] {
        s.open(clients, 0, 2_049).refused(3);
        s.open(clients, 0, 8).refused(3);
    }
    for records in [0, 2_049, 2_050, 4_096, 65_535] {
        s.open(2, 100, records).refused(4);
        s.open(256, MOST_PERIOD, records).refused(4);
    }
}

// An hour's slots and the marks at their bounds and past them. 14 comes after 13, and both between 3 and 4.
fn refused_hours(s: &mut Session) {
    let closed = [0; 21];
    for marks in [closed, [0xFF; 21], [0xAA; 21]] {
        for slots_per_hour in [0, 360_001, 1 << 31, u32::MAX] {
            let week = Week { slots_per_hour, marks };
            s.open_with(0, 0, 0, &week).refused(2);
            s.open_with(2, 0, 0, &week).refused(3);
            s.open_with(2, 100, 0, &week).refused(13);
            s.open_with(2, 100, 8, &week).refused(13);
        }
    }
    for slots_per_hour in [1, 2, 360_000] {
        let week = Week {
            slots_per_hour,
            marks: closed,
        };
        s.open_with(257, 100, 8, &week).refused(2);
        s.open_with(2, 0, 8, &week).refused(3);
        s.open_with(2, 100, 2_049, &week).refused(14);
        s.open_with(2, 100, 8, &week).refused(14);
    }
}

fn refused_hours_between(s: &mut Session) {
    let week = weekly(2, [0, 2]);
    refused_hours(s);
    s.open_with(2, 100, 4, &week).opened();
    s.submit(1, 5).kept(1, 0, 0);
    refused_hours(s);
    s.tick().served(0, 1, 1);
    s.tick().idle(1);
    refused_hours(s);
    s.tick().closed(2);
    s.report(1).reported(1, [1, 1, 0, 0]);
}

// Of so many slots an hour, with these hours open.
fn weekly(slots_per_hour: u32, open: impl IntoIterator<Item = usize>) -> Week {
    let mut marks = [0; 21];
    open.into_iter().for_each(|hour| marks[hour / 8] |= 0x80 >> (hour % 8));
    Week { slots_per_hour, marks }
}

// Two slots an hour, hours 0 and 2 open: slots 0, 1, 4 and 5 of the first 336.
const HOURS_IN: &str = "\
01000100000064000800000002A00000000000000000000000000000000000000000
0200000000000000000003
0200000000000000000005
05
0200000000000000000006
05
0200000000000000000005
03
03
03
0200000000000000000004
0200000000000000000009
05
03
03
03
03
";

const HOURS_OUT: &str = "\
81
82000000000000000100000000
82000000000000000200010000
8700000000000000010000000000000005
880001
82000000000000000300020000
8700000000000000010000000000000006
880001
82000000000000000400020001
84000000000000000000000000000000010000
84000000000000000100000000000000020000
890000000000000002
FF0F
830000000000000005000000000000000500000000
8700000000000000040000000000000006
880001
890000000000000003
84000000000000000400000000000000040000
84000000000000000500000000000000030000
890000000000000006";

fn small_with_hours(s: &mut Session) {
    s.raw(HOURS_IN).answer(HOURS_OUT);
}

// Every hour by itself, of one slot and of three, through two weeks: only its slots are open.
fn each_hour(s: &mut Session) {
    for (slots_per_hour, hour) in [1, 3]
        .into_iter()
        .flat_map(|n| [0, 1, 7, 8, 63, 64, 127, 128, 160, 166, 167].map(|hour| (n, hour)))
    {
        s.open_with(1, MOST_PERIOD, 1, &weekly(slots_per_hour, [hour])).opened();
        for slot in 0..2 * 168 * u64::from(slots_per_hour) {
            let tick = s.tick();
            if slot / u64::from(slots_per_hour) % 168 == hour as u64 {
                tick.idle(slot);
            } else {
                tick.closed(slot);
            }
        }
    }
}

// With the most slots an hour nothing but hour 0 comes into reach.
fn longest_hours(s: &mut Session) {
    s.open_with(1, 2, 4, &weekly(360_000, [0])).opened();
    s.submit(0, 65_535).kept(1, 0, 0);
    s.submit(0, 65_536).refused(7);
    s.chart().drawn(&[(65_534, 65_535)]);
    s.tick().served(0, 1, 0);
    s.open_with(1, 2, 4, &weekly(360_000, 1..168)).opened();
    for deadline in [1, 2, 65_535] {
        s.submit(0, deadline).refused(15);
    }
    s.submit(0, 0).refused(7);
    s.submit(0, 65_536).refused(7);
    s.submit(1, 1).refused(6);
    s.chart().drawn(&[]);
    s.tick().closed(0);
    s.tick().closed(1);
    s.report(0).reported(0, [0; 4]);
}

// A closed slot's tick starts a period like any other: what waits stays counted as submitted.
fn periods_with_hours(s: &mut Session) {
    s.open_with(2, 3, 8, &weekly(1, [0, 3])).opened();
    s.submit(0, 1).kept(1, 0, 0);
    s.submit(1, 3).dropped(2, 2, 1, 0);
    s.submit(1, 4).kept(3, 1, 0);
    s.chart().drawn(&[(0, 4)]);
    s.tick().served(0, 1, 0);
    s.report(0).reported(0, [1, 1, 0, 0]);
    s.report(1).reported(1, [2, 0, 1, 1]);
    s.tick().closed(1);
    s.tick().closed(2);
    s.report(0).reported(0, [0; 4]);
    s.report(1).reported(1, [1, 0, 0, 1]);
    s.tick().served(3, 3, 1);
    s.tick().closed(4);
    s.tick().closed(5);
    s.report(1).reported(1, [0; 4]);
}

// Segments over closed slots, and parted by open ones. Slots 0, 2, 4 and so on are open.
fn segments_with_hours(s: &mut Session) {
    s.open_with(1, 100, 8, &weekly(1, (0..168).step_by(2))).opened();
    s.submit(0, 10).kept(1, 0, 0);
    s.chart().drawn(&[(8, 9)]);
    s.submit(0, 12).kept(2, 1, 0);
    s.chart().drawn(&[(8, 11)]);
    s.submit(0, 3).kept(3, 0, 2);
    s.chart().drawn(&[(2, 3), (8, 11)]);
    s.submit(0, 12).kept(4, 3, 0);
    s.chart().drawn(&[(2, 3), (6, 11)]);
    s.submit(0, 6).kept(5, 1, 3);
    s.chart().drawn(&[(2, 11)]);
    s.submit(0, 169).kept(6, 5, 0);
    s.submit(0, 168).kept(7, 5, 1);
    // from the end of one week to the beginning of the next
    s.chart().drawn(&[(2, 11), (166, 169)]);
}

fn refused_opens_between(s: &mut Session) {
    s.open(3, 100, 4).opened();
    s.submit(1, 5).kept(1, 0, 0);
    s.submit(2, 5).kept(2, 1, 0);
    refused_opens(s);
    s.tick().served(0, 1, 1);
    refused_opens(s);
    s.chart().drawn(&[(4, 5)]);
    s.report(1).reported(1, [1, 1, 0, 0]);
    s.report(2).reported(2, [1, 0, 0, 1]);
    s.report(3).refused(6);
    refused_opens(s);
    s.submit(0, 1).refused(7);
    s.submit(0, 2).kept(3, 0, 1);
    s.submit(0, 3).kept(4, 1, 1);
    s.submit(0, 4).kept(5, 2, 1);
    s.submit(0, 4).refused(10);
    s.tick().served(1, 3, 0);
}

fn nothing_is_left(s: &mut Session, clients: u16) {
    s.chart().drawn(&[]);
    for client in 0..clients {
        s.report(client).reported(client, [0; 4]);
    }
    s.report(clients).refused(6);
}

// Number m has deadline m, and is the client's whose turn it is.
fn fill(s: &mut Session, clients: u16, records: u16) {
    for n in 0..records {
        s.submit(n % clients, n as u64 + 1).kept(n as u64 + 1, n as u64, 0);
    }
    s.submit(0, 1).refused(10);
    s.chart().drawn(&[(0, records as u64)]);
}

// From small tables to large ones and back; each open meets a full table, or counts of every kind.
fn opens_again(s: &mut Session) {
    let lengths = [
        (1, 1),
        (256, 2_048),
        (3, 5),
        (1, 2_048),
        (256, 1),
        (256, 2_048),
        (2, 2),
        (1, 1),
        (3, 5),
    ];
    for (clients, records) in lengths {
        for _ in 0..2 {
            s.open(clients, 50, records).opened();
            nothing_is_left(s, clients);
            fill(s, clients, records);
        }
        s.tick().served(0, 1, 0);
        if records > 1 {
            // the only slot up to deadline 2 is taken
            let number = records as u64 + 1;
            s.submit(0, 2).dropped(number, number, 0, records as u64 - 2);
        }
    }
    s.open(1, 50, 1).opened();
    s.tick().idle(0);
    nothing_is_left(s, 1);
}

fn first_match_of_submit_and_report(s: &mut Session) {
    s.open(2, 100, 1).opened();
    for client in [2, 256, 65_535] {
        s.submit(client, 0).refused(6);
        s.submit(client, 1).refused(6);
        s.report(client).refused(6);
    }
    for deadline in [0, 65_536, 1 << 16 | 1, 1 << 32, 1 << 48 | 1, 1 << 63, u64::MAX] {
        s.submit(1, deadline).refused(7);
    }
    s.submit(1, 3).kept(1, 0, 0);
    // the table is full
    s.submit(2, 0).refused(6);
    s.submit(0, 0).refused(7);
    s.submit(0, 65_536).refused(7);
    s.submit(0, 1).refused(10);
    s.submit(1, 65_535).refused(10);
    s.tick().served(0, 1, 1);
    s.submit(0, 1).refused(7);
    s.submit(0, 65_537).refused(7);
    s.submit(0, 65_536).kept(2, 0, 0);
}

fn worked_reads(s: &mut Session) {
    s.open(1, 100, 4).opened();
    s.tick().idle(0);
    s.open(1, 100, 4).opened();
    s.submit(0, 0).refused(7);
    s.submit(0, 1).kept(1, 0, 0);
    s.open(1, 100, 4).opened();
    s.submit(0, 65_535).kept(1, 0, 0);
    s.submit(0, 65_536).refused(7);
    s.open(2, 100, 4).opened();
    s.submit(0, 2).kept(1, 0, 0);
    s.submit(0, 2).kept(2, 1, 0);
    s.submit(1, 2).dropped(3, 3, 1, 0);
    s.open(1, 100, 1).opened();
    s.submit(0, 9).kept(1, 0, 0);
    s.submit(0, 9).refused(10);
    s.tick().served(0, 1, 0);
    s.submit(0, 9).kept(2, 0, 0);
}

fn charts(s: &mut Session) {
    s.open(1, 100, 5).opened();
    s.chart().drawn(&[]);
    for (place, deadline) in [3, 5, 10, 10].into_iter().enumerate() {
        s.submit(0, deadline).kept(place as u64 + 1, place as u64, 0);
    }
    s.chart().drawn(&[(2, 3), (4, 5), (8, 10)]);
    s.submit(0, 4).kept(5, 1, 3);
    s.chart().drawn(&[(2, 5), (8, 10)]);
    for (slot, number) in (0..).zip([1, 5, 2]) {
        s.tick().served(slot, number, 0);
    }
    s.chart().drawn(&[(8, 10)]);
}

// 1 of 4 against 1 of 2: the first client loses.
fn smaller_ratio(s: &mut Session) {
    s.open(2, 100, 8).opened();
    s.submit(0, 1).kept(1, 0, 0);
    s.submit(0, 1).dropped(2, 2, 0, 0);
    s.submit(1, 1).dropped(3, 3, 1, 0);
    s.tick().served(0, 1, 0);
    s.submit(0, 2).kept(4, 0, 0);
    s.tick().served(1, 4, 0);
    s.submit(0, 3).kept(5, 0, 0);
    s.report(0).reported(0, [4, 2, 1, 1]);
    s.report(1).reported(1, [1, 0, 1, 0]);
    s.submit(1, 3).dropped(6, 5, 0, 0);
    s.report(0).reported(0, [4, 2, 2, 0]);
    s.report(1).reported(1, [2, 0, 1, 1]);
    s.tick().served(2, 6, 1);
}

// 1 of 3 is 2 of 6: the last in chart order.
fn equal_ratios(s: &mut Session) {
    s.open(2, 100, 8).opened();
    s.submit(0, 1).kept(1, 0, 0);
    s.submit(0, 1).dropped(2, 2, 0, 0);
    s.tick().served(0, 1, 0);
    s.submit(1, 2).kept(3, 0, 0);
    s.submit(1, 2).dropped(4, 4, 1, 0);
    s.submit(1, 2).dropped(5, 5, 1, 0);
    s.tick().served(1, 3, 1);
    s.submit(1, 3).kept(6, 0, 0);
    s.tick().served(2, 6, 1);
    s.submit(1, 4).kept(7, 0, 0);
    s.tick().served(3, 7, 1);
    s.submit(0, 5).kept(8, 0, 0);
    s.report(0).reported(0, [3, 1, 1, 1]);
    s.report(1).reported(1, [5, 3, 2, 0]);
    s.submit(1, 5).dropped(9, 9, 1, 0);
    s.report(1).reported(1, [6, 3, 3, 0]);
    s.tick().served(4, 8, 0);
}

// The record that is lost stands before the new one, behind it, or is none of the later ones in its segment.
fn victims(s: &mut Session) {
    s.open(3, 100, 8).opened();
    s.submit(0, 2).kept(1, 0, 0);
    s.submit(1, 2).kept(2, 1, 0);
    s.submit(2, 3).kept(3, 2, 0);
    s.chart().drawn(&[(0, 3)]);
    // all at 0: the last of those up to deadline 2
    s.submit(0, 1).dropped(4, 2, 1, 3);
    s.submit(1, 2).dropped(5, 1, 0, 1);
    s.submit(2, 2).dropped(6, 6, 2, 1);
    // clients 1 and 2 are at 1 of 2, and client 0 with the new one at 1 of 3
    s.submit(0, 3).dropped(7, 7, 0, 0);
    s.report(0).reported(0, [3, 0, 2, 1]);
    s.report(1).reported(1, [2, 0, 1, 1]);
    s.report(2).reported(2, [2, 0, 1, 1]);
    s.tick().served(0, 4, 0);
    s.tick().served(1, 5, 1);
    s.tick().served(2, 3, 2);
    s.tick().idle(3);
}

fn period_starts(s: &mut Session) {
    s.open(2, 3, 8).opened();
    s.submit(0, 1).kept(1, 0, 0);
    s.submit(0, 1).dropped(2, 2, 0, 0);
    for number in 3..=5 {
        s.submit(1, 9).kept(number, number - 2, 0);
    }
    s.tick().served(0, 1, 0);
    s.tick().served(1, 3, 1);
    s.report(0).reported(0, [2, 1, 1, 0]);
    s.report(1).reported(1, [3, 1, 0, 2]);
    // what waits stays counted as submitted
    s.tick().served(2, 4, 1);
    s.report(0).reported(0, [0; 4]);
    s.report(1).reported(1, [1, 0, 0, 1]);
    s.tick().served(3, 5, 1);
    s.submit(0, 5).kept(6, 0, 0);
    s.report(0).reported(0, [1, 0, 0, 1]);
    s.report(1).reported(1, [1, 1, 0, 0]);
    s.tick().served(4, 6, 0);
    s.tick().idle(5);
    s.report(0).reported(0, [0; 4]);
    s.report(1).reported(1, [0; 4]);
}

fn period_of_one(s: &mut Session) {
    s.open(1, 1, 3).opened();
    s.submit(0, 4).kept(1, 0, 0);
    s.submit(0, 4).kept(2, 1, 0);
    s.submit(0, 4).kept(3, 2, 0);
    for slot in 0..3 {
        s.tick().served(slot, slot + 1, 0);
        let waiting = 2 - slot as u32;
        s.report(0).reported(0, [waiting, 0, 0, waiting]);
    }
}

// More answers than the program's output has room for, and slots above 16 bits.
fn many_ticks(s: &mut Session) {
    s.open(1, MOST_PERIOD, 1).opened();
    for slot in 0..70_000 {
        s.tick().idle(slot);
    }
    for deadline in [0, 1, 65_535, 70_000, 70_000 + 65_536] {
        s.submit(0, deadline).refused(7);
    }
    s.submit(0, 70_000 + 65_535).kept(1, 0, 0);
    s.chart().drawn(&[(135_534, 135_535)]);
    s.tick().served(70_000, 1, 0);
    for (number, slot) in (2..).zip(70_001..72_000) {
        s.submit(0, slot + 1).kept(number, 0, 0);
        s.tick().served(slot, number, 0);
    }
    s.report(0).reported(0, [2_000, 2_000, 0, 0]);
}

fn full_of_many_clients(s: &mut Session) {
    s.open(256, 10_000, 2_048).opened();
    fill(s, 256, 2_048);
    for client in 0..256 {
        s.submit(client, 2_049).refused(10);
        s.report(client).reported(client, [8, 0, 0, 8]);
    }
    for slot in 0..2_048 {
        s.tick().served(slot, slot + 1, slot as u16 % 256);
    }
    for client in 0..256 {
        s.report(client).reported(client, [8, 8, 0, 0]);
    }
    s.tick().idle(2_048);
}

// Deadlines 31 slots apart, the last first, so that each request goes to the front and is a segment of its own. A chart's
// answer is longer than the input's buffer, and one after the other they are more than the output has room for.
fn segment_each(s: &mut Session) {
    s.open(1, 100, 2_048).opened();
    for number in 1..=2_048 {
        s.submit(0, 31 * (2_049 - number)).kept(number, 0, number - 1);
    }
    let segments: Vec<(u64, u64)> = (1..=2_048).map(|n| (31 * n - 1, 31 * n)).collect();
    for _ in 0..20 {
        s.chart().drawn(&segments);
    }
    s.tick().served(0, 2_048, 0);
    s.chart().drawn(&segments[1..]);
    s.report(0).reported(0, [2_048, 1, 0, 2_047]);
}

// All at one deadline, which makes one segment; a record is free again after a tick, but no slot.
fn one_segment(s: &mut Session) {
    s.open(2, 10_000, 2_048).opened();
    for n in 0..2_048 {
        s.submit(0, 2_048).kept(n + 1, n, 0);
    }
    s.submit(1, 2_048).refused(10);
    s.chart().drawn(&[(0, 2_048)]);
    s.tick().served(0, 1, 0);
    s.submit(1, 2_048).dropped(2_049, 2_049, 1, 0);
    // client 0 has dropped none: its last one goes
    s.submit(1, 2).dropped(2_050, 2_048, 0, 2_047);
    s.chart().drawn(&[(1, 2_048)]);
    s.tick().served(1, 2_050, 1);
    s.tick().served(2, 2, 0);
}

type Case = (&'static str, fn(&mut Session));

const CASES: [Case; 34] = [
    ("document 01's session", document),
    ("empty input", nothing),
    ("a line feed", line_feed),
    ("before an open", before_an_open),
    ("kinds and lengths", kinds_and_lengths),
    ("wrong lengths", wrong_lengths),
    ("around the longest frame", around_the_longest),
    ("every byte", every_byte),
    ("other characters", other_characters),
    ("odd digits", odd_digits),
    ("lines a little too long", lines_a_little_too_long),
    ("long lines", long_lines),
    ("an open's bounds", open_bounds),
    ("refused opens", refused_opens),
    ("refused opens between", refused_opens_between),
    ("opens again", opens_again),
    ("refused hours between", refused_hours_between),
    ("a small session with hours", small_with_hours),
    ("each hour by itself", each_hour),
    ("the longest hours", longest_hours),
    ("period starts with hours", periods_with_hours),
    ("segments with hours", segments_with_hours),
    ("first match wins: submit and report", first_match_of_submit_and_report),
    ("worked reads", worked_reads),
    ("charts", charts),
    ("the smaller ratio", smaller_ratio),
    ("equal ratios", equal_ratios),
    ("victims", victims),
    ("period starts", period_starts),
    ("a period of one slot", period_of_one),
    ("many ticks", many_ticks),
    ("2,048 records of 256 clients", full_of_many_clients),
    ("2,048 segments", segment_each),
    ("one segment of 2,048", one_segment),
];

const SIGPIPE: i32 = 13;

// What the program says where it could not write, and where it could not read.
const UNWRITTEN: &str = "session_main: the answers could not be written, the session is over\n";
const UNREADABLE: &str = "session_main: the input could not be read, the session is over\n";

const LIMIT: Duration = Duration::from_secs(60);

// Inputs up to this length are fed in pieces too.
const SHORT: usize = 2_000;

// In turn, until the input is all fed.
const PIECES: [&[usize]; 12] = [
    &[1],
    &[2],
    &[3],
    &[5],
    &[7],
    &[1, 2, 3, 5, 7, 11, 13, 17, 19],
    &[22],
    &[23],
    &[24],
    &[LONGEST],
    &[LONGEST + 1],
    &[LONGEST + 2],
];

fn fail(message: String) -> ! {
    println!("{message}");
    exit(1);
}

fn or_fail<T>(what: &str, result: io::Result<T>) -> T {
    result.unwrap_or_else(|e| fail(format!("{what}: {e}")))
}

// How the program came to its end, and what it wrote.
struct Ended {
    status: ExitStatus,
    output: Vec<u8>,
    errors: Vec<u8>,
}

// The program under test.
struct Program {
    path: PathBuf,
    // a file for inputs
    scratch: PathBuf,
    case: String,
    sessions: u32,
    runs: u32,
}

// The command is gone afterwards, and with it this side's copies of what it was given.
fn start_to(mut command: Command, output: impl Into<Stdio>) -> Child {
    let started = command.stdout(output).stderr(Stdio::piped()).spawn();
    or_fail("the program", started)
}

fn start(command: Command) -> Child {
    start_to(command, Stdio::piped())
}

// Two ends. The second is the program's: where it would have to wait, a read or a write of it fails.
fn nonblocking_pair() -> (UnixStream, UnixStream) {
    let (ours, theirs) = or_fail("two sockets", UnixStream::pair());
    or_fail("two sockets", theirs.set_nonblocking(true));
    (ours, theirs)
}

// Reads to the end in a thread, so that the program never waits for a reader.
fn read_aside(from: Option<impl Read + Send + 'static>) -> JoinHandle<Vec<u8>> {
    spawn(move || {
        let mut all = vec![];
        if let Some(mut from) = from {
            or_fail("what the program writes", from.read_to_end(&mut all));
        }
        all
    })
}

// Feeds the pieces in a thread, as long as the program takes them.
fn feed_aside(pieces: Vec<Vec<u8>>, mut feed: impl FnMut(&[u8]) -> io::Result<()> + Send + 'static) {
    spawn(move || pieces.iter().try_for_each(|piece| feed(piece)));
}

fn pieces_of(mut input: &[u8], sizes: &[usize]) -> Vec<Vec<u8>> {
    let mut pieces = vec![];
    for &size in sizes.iter().cycle() {
        if input.is_empty() {
            break;
        }
        let (piece, rest) = input.split_at(size.min(input.len()));
        pieces.push(piece.to_vec());
        input = rest;
    }
    pieces
}

// The first characters, readable.
fn shown(bytes: &[u8]) -> String {
    let (first, more) = bytes.split_at(bytes.len().min(100));
    let more = if more.is_empty() { "" } else { " .." };
    format!("{}{more}", first.escape_ascii())
}

// The line that the character stands in.
fn line_of(bytes: &[u8], character: usize) -> String {
    let (before, behind) = bytes.split_at(character);
    let start = before.iter().rposition(|&byte| byte == b'\n').map_or(0, |feed| feed + 1);
    let end = behind.iter().position(|&byte| byte == b'\n').unwrap_or(behind.len());
    shown(&bytes[start..character + end])
}

impl Program {
    fn command(&self) -> Command {
        Command::new(&self.path)
    }

    // As a shell does it that is told so; $0 is the program.
    fn by_shell(&self, script: &str) -> Command {
        let mut shell = Command::new("sh");
        shell.arg("-c").arg(script).arg(&self.path);
        shell
    }

    // Waits for the end.
    fn end(&mut self, mut child: Child) -> Ended {
        let (output, errors) = (read_aside(child.stdout.take()), read_aside(child.stderr.take()));
        let limit = Instant::now() + LIMIT;
        let status = loop {
            if let Some(status) = or_fail("the program", child.try_wait()) {
                break status;
            }
            if limit < Instant::now() {
                let _ = child.kill();
                fail(format!("{}: no end within {LIMIT:?}", self.case));
            }
            sleep(Duration::from_micros(100));
        };
        self.runs += 1;
        let [output, errors] = [output, errors].map(|all| all.join().unwrap_or_default());
        Ended { status, output, errors }
    }

    // The program ended by itself, and said this on standard error.
    fn hold_said(&self, said: &str, ended: &Ended) {
        if !ended.status.success() || ended.errors != said.as_bytes() {
            fail(format!("{}: {}, {}", self.case, ended.status, shown(&ended.errors)));
        }
    }

    fn hold(&self, session: &Session, ended: &Ended) {
        self.hold_said("", ended);
        self.hold_answers(session, ended);
    }

    fn hold_answers(&self, session: &Session, ended: &Ended) {
        let mut left = &ended.output[..];
        for (i, (line, answer)) in session.lines.iter().zip(&session.answers).enumerate() {
            let Some(rest) = left.strip_prefix(&answer[..]) else {
                let same = left.iter().zip(answer).take_while(|(a, b)| a == b).count();
                println!("{}: line {}, {}", self.case, i + 1, shown(line));
                fail(format!(
                    "expected {}\n    came {}",
                    line_of(answer, same),
                    line_of(left, same)
                ));
            };
            left = rest;
        }
        if !left.is_empty() {
            fail(format!("{}: more came, {}", self.case, shown(left)));
        }
    }
}

// The ways to feed a session.
impl Program {
    fn by_pipe(&mut self, input: &[u8], sizes: &[usize], pause: Duration) -> Ended {
        let mut command = self.command();
        command.stdin(Stdio::piped());
        let mut child = start(command);
        if let Some(mut pipe) = child.stdin.take() {
            feed_aside(pieces_of(input, sizes), move |piece| {
                pipe.write_all(piece)?;
                sleep(pause);
                Ok(())
            });
        }
        self.end(child)
    }

    // Each read gives as much as the buffer takes.
    fn by_file(&mut self, input: &[u8]) -> Ended {
        or_fail("the file for inputs", write(&self.scratch, input));
        let mut command = self.command();
        command.stdin(or_fail("the file for inputs", File::open(&self.scratch)));
        let child = start(command);
        self.end(child)
    }

    // Each read gives one datagram; an empty one is the end, which may be read more than once.
    fn by_datagrams(&mut self, input: &[u8], sizes: &[usize]) -> Ended {
        let (ours, theirs) = or_fail("two sockets", UnixDatagram::pair());
        let mut command = self.command();
        command.stdin(OwnedFd::from(theirs));
        let child = start(command);
        let mut pieces = pieces_of(input, sizes);
        pieces.extend([vec![], vec![], vec![], vec![]]);
        feed_aside(pieces, move |piece| ours.send(piece).map(drop));
        self.end(child)
    }
}

impl Program {
    fn name(&mut self, case: &str, way: &str) {
        self.case = format!("{case}, {way}");
    }

    fn try_every_way(&mut self, case: &str, session: &Session) {
        let input = session.lines.concat();
        self.sessions += 1;
        self.name(case, "through a pipe");
        let ended = self.by_pipe(&input, &[usize::MAX], Duration::ZERO);
        self.hold(session, &ended);
        self.name(case, "from a file");
        let ended = self.by_file(&input);
        self.hold(session, &ended);
        if input.len() <= SHORT {
            self.try_in_pieces(case, session, &input);
        }
    }

    fn try_in_pieces(&mut self, case: &str, session: &Session, input: &[u8]) {
        self.name(case, "one byte a write through a pipe");
        // long enough for most bytes to be read alone
        let ended = self.by_pipe(input, &[1], Duration::from_micros(10));
        self.hold(session, &ended);
        for sizes in PIECES {
            self.name(case, &format!("in reads of {sizes:?} bytes"));
            let ended = self.by_datagrams(input, sizes);
            self.hold(session, &ended);
        }
    }

    fn try_last_lines(&mut self) {
        let around_the_buffer = BUFFER - 2..=BUFFER + 2;
        for characters in [1, 2, 6, 21, 22, 23, LONGEST - 1, LONGEST, LONGEST + 1, LONGEST + 2, 100]
            .into_iter()
            .chain(around_the_buffer)
            .chain([100_000])
        {
            for session in no_line_feed(characters) {
                self.try_every_way(&format!("{characters} characters without a line feed"), &session);
            }
        }
    }

    // Lines across the end of the program's buffer, at each character of theirs.
    fn try_buffer_ends(&mut self) {
        for characters in BUFFER - BEHIND..=BUFFER + 30 {
            for fill in [one_line, empty_lines] {
                let session = behind(characters, fill);
                self.sessions += 1;
                self.name(&format!("lines behind {characters} characters"), "from a file");
                let ended = self.by_file(&session.lines.concat());
                self.hold(&session, &ended);
            }
        }
    }

    // Nobody reads the answers. The signal for that may end the program, without a word, and where it is ignored, the failed write.
    fn try_unread_answers(&mut self) {
        let input = frames::open(1, 100, 1) + "\n" + &"03\n".repeat(1_000_000);
        let ways = [
            ("closed after the first", "exec \"$0\""),
            ("closed after the first, the signal ignored", "trap '' PIPE; exec \"$0\""),
            ("closed from the start", "exec \"$0\" >&-"),
            ("to a full device", "exec \"$0\" >/dev/full"),
        ];
        for (way, script) in ways {
            self.sessions += 1;
            self.name("unread answers", way);
            let mut command = self.by_shell(script);
            command.stdin(Stdio::piped());
            let mut child = start(command);
            if let Some(mut pipe) = child.stdin.take() {
                feed_aside(vec![input.clone().into_bytes()], move |piece| pipe.write_all(piece));
            }
            if let Some(mut answers) = child.stdout.take() {
                spawn(move || answers.read_exact(&mut [0; 3]));
            }
            let ended = self.end(child);
            if ended.status.signal() != Some(SIGPIPE) || !ended.errors.is_empty() {
                self.hold_said(UNWRITTEN, &ended);
            }
        }
    }

    // The answers are read only when the program has ended. Its write fails where it would have to wait; what came is the beginning.
    fn try_nonblocking_output(&mut self) {
        let mut session = Session::default();
        many_ticks(&mut session);
        self.sessions += 1;
        self.name("a slow reader", "no write waits");
        or_fail("the file for inputs", write(&self.scratch, session.lines.concat()));
        let mut command = self.command();
        command.stdin(or_fail("the file for inputs", File::open(&self.scratch)));
        let (mut ours, theirs) = nonblocking_pair();
        let child = start_to(command, OwnedFd::from(theirs));
        let ended = self.end(child);
        self.hold_said(UNWRITTEN, &ended);
        let mut came = vec![];
        or_fail("what the program wrote", ours.read_to_end(&mut came));
        let answers = session.answers.concat();
        if came.is_empty() || came.len() == answers.len() || !answers.starts_with(&came) {
            fail(format!("{}: {} characters came, {}", self.case, came.len(), shown(&came)));
        }
    }

    // A read that fails ends the session as the input's end does, and the program says so.
    fn try_unreadable_inputs(&mut self) {
        for (way, script) in [
            ("closed", "exec \"$0\" <&-"),
            ("a directory", "exec \"$0\" </"),
            ("for writing", "exec \"$0\" 0>/dev/null"),
        ] {
            self.sessions += 1;
            self.name("unreadable input", way);
            let child = start(self.by_shell(script));
            let ended = self.end(child);
            self.hold_said(UNREADABLE, &ended);
            self.hold_answers(&Session::default(), &ended);
        }
    }

    // More of the input is to come. A read of it fails where it would have to wait.
    fn try_nonblocking_input(&mut self) {
        for fill in [nothing, document, document_and_more] {
            let mut session = Session::default();
            fill(&mut session);
            self.sessions += 1;
            self.name("more to come", "no read waits");
            let (mut ours, theirs) = nonblocking_pair();
            or_fail("the first part of the input", ours.write_all(&session.lines.concat()));
            let mut command = self.command();
            command.stdin(OwnedFd::from(theirs));
            let child = start(command);
            let ended = self.end(child);
            self.hold_said(UNREADABLE, &ended);
            self.hold_answers(&session, &ended);
        }
    }
}

fn main() {
    let Some(path) = args().nth(1) else {
        println!("which program?");
        exit(2);
    };
    let mut program = Program {
        path: path.into(),
        scratch: or_fail("this program's path", current_exe()).with_extension("in"),
        case: String::new(),
        sessions: 0,
        runs: 0,
    };
    for (case, fill) in CASES {
        let mut session = Session::default();
        fill(&mut session);
        program.try_every_way(case, &session);
    }
    program.try_last_lines();
    program.try_buffer_ends();
    program.try_unread_answers();
    program.try_nonblocking_output();
    program.try_unreadable_inputs();
    program.try_nonblocking_input();
    println!(
        "{} sessions, run {} times: all as the documents say",
        program.sessions, program.runs
    );
}
