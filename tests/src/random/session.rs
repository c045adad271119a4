//! Random sessions, with lines of every kind, good and bad. What is answered is for the model to say: the clock is followed
//! here only so that deadlines lie near it and hours are left.
use crate::frames::{self, Week};
use crate::random::hours::{end_of_hour, hours, PER_HOUR};
use crate::random::Random;

// So many ticks in a row are enough: no session leaves an hour that is longer.
const MOST_TICKS: u64 = 4_000;

// What the calls of one list are like.
struct Style {
    records: u16,
    clients: u16,
    period: u32,
    week: Week,
    // how far ahead of the clock the deadlines lie, at least and at most
    ahead: (u64, u64),
    // how many of a hundred submits and ticks are submits
    submits: usize,
    calls: usize,
}

struct Writer {
    random: Random,
    input: Vec<u8>,
    style: Style,
    clock: u64,
}

// A session of several lists, the first of them with a table of 2,048 records that becomes full or nearly so if it is large.
pub fn session(mut random: Random, is_large: bool) -> Vec<u8> {
    let style = if is_large {
        large_list(&mut random)
    } else {
        small_list(&mut random)
    };
    let mut writer = Writer {
        random,
        input: vec![],
        style,
        clock: 0,
    };
    if writer.random.below(4) == 0 {
        writer.calls(6);
    }
    for _ in 0..writer.random.between(1, 8) {
        writer.open();
        writer.calls(writer.style.calls);
        writer.style = small_list(&mut writer.random);
    }
    if writer.random.below(3) == 0 {
        let line = writer.last_line();
        writer.input.extend(line);
    }
    writer.input
}

fn small_list(random: &mut Random) -> Style {
    let records = random.one_of(&[1, 2, 3, 7, 7, 60, 60, 2_048, 2_048]);
    let near = u64::from(records).min(60);
    let few = random.between(5, 120) as usize;
    Style {
        records,
        clients: random.one_of(&[1, 2, 5, 256]),
        period: random.one_of(&[1, 2, 3, 10, 100, u32::MAX]),
        week: week(random),
        ahead: random.one_of(&[
            (1, 2),
            (1, 4),
            (1, 8),
            (1, near + 1),
            (1, 4 * near),
            (1, 65_535),
            (65_530, 65_536),
        ]),
        submits: random.one_of(&[30, 50, 60, 80, 95]),
        calls: random.mostly(few, 600),
    }
}

fn week(random: &mut Random) -> Week {
    Week {
        slots_per_hour: random.one_of(&PER_HOUR) as u32,
        marks: hours(random).marks,
    }
}

fn large_list(random: &mut Random) -> Style {
    let every_second = Week {
        slots_per_hour: random.one_of(&[1, 2, 16, 360]),
        marks: [0xAA; 21],
    };
    Style {
        records: 2_048,
        clients: random.one_of(&[1, 5, 256]),
        period: random.one_of(&[3, 100, u32::MAX]),
        week: random.one_of(&[frames::ALL_OPEN, frames::ALL_OPEN, every_second]),
        ahead: random.one_of(&[(1, 1_500), (1, 2_100), (1_000, 3_000), (1, 65_535)]),
        submits: 95,
        calls: 3_300,
    }
}

// Calls, mostly such as are accepted.
impl Writer {
    fn line(&mut self, line: impl AsRef<[u8]>) {
        self.input.extend(line.as_ref());
        self.input.push(b'\n');
    }

    fn calls(&mut self, calls: usize) {
        for _ in 0..calls {
            match self.random.below(100) {
                0..=3 => self.bad_line(),
                4 => self.refused_open(),
                5 => self.reports_of_all(),
                _ if self.random.below(900) == 0 => self.ticks(),
                6..=9 => self.report(),
                10..=14 => self.line(frames::CHART),
                _ if self.random.below(100) < self.style.submits => self.submit(),
                _ => self.tick(),
            }
        }
    }

    fn open(&mut self) {
        let style = &self.style;
        self.line(frames::open_with(style.clients, style.period, style.records, &style.week));
        self.clock = 0;
    }

    fn submit(&mut self) {
        let (client, deadline) = (self.client(), self.deadline());
        self.line(frames::submit(client, deadline));
    }

    fn tick(&mut self) {
        self.line(frames::TICK);
        self.clock += 1;
    }

    // Through some hours, if they are short, or past the end of a longer one.
    fn ticks(&mut self) {
        let slots_per_hour = u64::from(self.style.week.slots_per_hour);
        let some = self.random.between(1, (3 * slots_per_hour).clamp(200, 500));
        let past_the_end = slots_per_hour - self.clock % slots_per_hour + self.random.between(0, 2);
        let many = if past_the_end < MOST_TICKS { past_the_end } else { some };
        for _ in 0..self.random.one_of(&[some, some, many]) {
            self.tick();
        }
    }

    fn report(&mut self) {
        let client = self.client();
        self.line(frames::report(client));
    }

    fn reports_of_all(&mut self) {
        let clients = self.style.clients;
        for client in 0..self.random.mostly(clients.min(5), clients) {
            self.line(frames::report(client));
        }
    }

    // No table has so many records, so that it is refused even if all else is in bounds.
    fn refused_open(&mut self) {
        let clients = self.random.one_of(&[0, 1, 2, 256, 257, 65_535]);
        let period = self.random.one_of(&[0, 1, 7]);
        let records = self.random.one_of(&[0, 2_049, 65_535]);
        let week = Week {
            slots_per_hour: self.random.one_of(&[0, 1, 360_000, 360_001, u32::MAX]),
            marks: self.random.one_of(&[[0; 21], [0xFF; 21], self.style.week.marks]),
        };
        self.line(frames::open_with(clients, period, records, &week));
    }

    fn client(&mut self) -> u16 {
        let clients = self.style.clients;
        let exists = self.random.below(clients.into()) as u16;
        let other = self.random.one_of(&[0, clients - 1, clients, 65_535]);
        self.random.mostly(exists, other)
    }

    fn deadline(&mut self) -> u64 {
        let clock = self.clock;
        let (least, most) = self.style.ahead;
        let usual = clock + self.random.between(least, most);
        let end_of_hour = end_of_hour(&mut self.random, self.style.week.slots_per_hour.into(), clock);
        let bounds = [0, clock, clock + 1, clock + 65_535, clock + 65_536, 1 << 48, u64::MAX];
        let bound = self.random.one_of(&bounds);
        let other = self.random.one_of(&[bound, end_of_hour]);
        self.random.mostly(usual, other)
    }
}

// A line that is no frame, but for some in which a digit was exchanged for another.
type Bad = fn(&mut Writer) -> Vec<u8>;

const BAD: [Bad; 12] = [
    |_| vec![],
    |writer| [writer.frame(), writer.digits(1)].concat(),
    |writer| writer.shortened(1),
    |writer| [writer.frame(), writer.digits(2)].concat(),
    |writer| writer.shortened(2),
    // a deadline with a letter in it
    |writer| frames::submit(0, writer.clock | 0xA).to_lowercase().into(),
    |writer| [writer.frame(), b"\r".to_vec()].concat(),
    |writer| [b" ".to_vec(), writer.frame()].concat(),
    Writer::unknown_kind,
    Writer::too_long,
    Writer::any_bytes,
    Writer::another_byte,
];

impl Writer {
    fn bad_line(&mut self) {
        let bad = self.random.one_of(&BAD)(self);
        self.line(bad);
    }

    // Of any kind.
    fn frame(&mut self) -> Vec<u8> {
        let (client, deadline) = (self.client(), self.deadline());
        let frame = match self.random.below(5) {
            0 => frames::open_with(client, 7, 7, &self.style.week),
            1 => frames::submit(client, deadline),
            2 => frames::TICK.into(),
            3 => frames::report(client),
            _ => frames::CHART.into(),
        };
        frame.into()
    }

    fn digits(&mut self, count: usize) -> Vec<u8> {
        (0..count).map(|_| self.random.one_of(b"0123456789ABCDEF")).collect()
    }

    fn shortened(&mut self, by: usize) -> Vec<u8> {
        let mut frame = self.frame();
        frame.truncate(frame.len() - by);
        frame
    }

    fn unknown_kind(&mut self) -> Vec<u8> {
        let kind = self.random.one_of(&[0x00, 0x07, 0x10, 0x7F, 0x81, 0x88, 0xFF]);
        let digits = self.random.one_of(&[0, 4, 16, 20, 66]);
        [format!("{kind:02X}").into(), self.digits(digits)].concat()
    }

    // A little, more than the frames of a few lines, and seldom more than a reader's buffer may have. Its parts would be
    // frames.
    fn too_long(&mut self) -> Vec<u8> {
        let little = self.random.between(12, 60) as usize;
        let much = self.random.one_of(&[300, 5_000, 40_000]);
        b"03".repeat(self.random.mostly(little, much))
    }

    fn any_bytes(&mut self) -> Vec<u8> {
        let count = self.random.between(1, 80);
        (0..count).map(|_| self.random.next() as u8).collect()
    }

    fn another_byte(&mut self) -> Vec<u8> {
        let mut frame = self.frame();
        let place = self.random.below(frame.len());
        frame[place] = (self.random.next() >> 16) as u8;
        frame
    }

    // What stands behind the last line feed: a frame, or what is none.
    fn last_line(&mut self) -> Vec<u8> {
        let bad = self.random.one_of(&BAD);
        let line = self.random.one_of(&[Writer::frame, bad])(self);
        line.into_iter().filter(|&byte| byte != b'\n').collect()
    }
}
