//! Busy sessions: more submits than can be served, so that the table stays nearly full and reads are dropped.
use tests::frames::{self, Week, ALL_OPEN};
use tests::random::Random;

// What a session opens with.
#[derive(Clone, Copy)]
pub struct Station {
    pub records: u16,
    pub clients: u16,
    pub week: Week,
}

impl Station {
    // All hours are open.
    pub const fn new(records: u16, clients: u16) -> Station {
        Station {
            records,
            clients,
            week: ALL_OPEN,
        }
    }

    pub const fn every_second_closed(self, slots_per_hour: u32) -> Station {
        let week = Week {
            slots_per_hour,
            marks: [0xAA; 21],
        };
        Station { week, ..self }
    }
}

// A session's station, and its clock, which each tick moves on.
struct Busy {
    random: Random,
    records: u16,
    clients: u16,
    clock: u64,
}

// So many frames, the first of them an open.
pub fn session(station: &Station, count: usize) -> Vec<u8> {
    let Station { records, clients, week } = station;
    let mut busy = Busy {
        random: Random(0x9E37_79B9_7F4A_7C15),
        records: *records,
        clients: *clients,
        clock: 0,
    };
    let mut input = frames::open_with(*clients, 1_000, *records, week) + "\n";
    for _ in 1..count {
        input += &busy.frame();
        input += "\n";
    }
    input.into()
}

impl Busy {
    // Three submits for two ticks.
    fn frame(&mut self) -> String {
        match self.random.below(1_000) {
            0..2 => frames::CHART.into(),
            2..30 => frames::report(self.client()),
            30..40 => self.refused(),
            _ if self.random.below(5) < 3 => self.submit(),
            _ => {
                self.clock += 1;
                frames::TICK.into()
            }
        }
    }

    fn client(&mut self) -> u16 {
        self.random.below(self.clients as usize) as u16
    }

    // A sixteenth fewer slots than records, so that reads are dropped more often than refused for want of a record. Most
    // deadlines are late, which keeps the table nearly full. Some are anywhere, and some so late that it can get full.
    fn submit(&mut self) -> String {
        let slots = self.records as usize * 15 / 16;
        let late = slots - self.random.below(slots / 8 + 1);
        let anywhere = 1 + self.random.below(slots + slots / 8);
        let ahead = self.random.mostly(late, anywhere);
        frames::submit(self.client(), self.clock + ahead as u64)
    }

    // No frames, and frames that get another refusal.
    fn refused(&mut self) -> String {
        let (client, clients) = (self.client(), self.clients);
        match self.random.below(18) {
            0 => String::new(),
            1 => frames::TICK.repeat(50),
            2 => self.submit() + "0",
            3 => self.submit().replace('0', "O"),
            4 => frames::open(300, 1_000, 10).to_lowercase(),
            5 => frames::TICK.to_string() + "\r",
            6 => frames::report(client)[1..].into(),
            7 => "7F".into(),
            8 => frames::open(0, 1_000, 10),
            9 => frames::open(257, 0, 10),
            10 => frames::open(1, 0, 10),
            11 => frames::open(1, 1_000, self.random.one_of(&[0, 2_049, 65_535])),
            12 => frames::report(clients),
            13 => frames::submit(self.random.one_of(&[clients, 65_535]), self.clock + 1),
            14 => frames::submit(client, self.clock),
            15 => open_in(self.random.one_of(&[0, 360_001, u32::MAX]), 0xFF),
            16 => open_in(self.random.one_of(&[1, 360_000]), 0),
            _ => frames::submit(client, self.clock + self.random.one_of(&[65_536, u64::MAX / 2])),
        }
    }
}

// Eight hours have these marks, and so have the next.
fn open_in(slots_per_hour: u32, marks: u8) -> String {
    let week = Week {
        slots_per_hour,
        marks: [marks; 21],
    };
    frames::open_with(1, 1_000, 10, &week)
}
