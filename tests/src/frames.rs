// Frames of a session, as document 01 writes them under "Kinds in" and document 02 goes on, each without its line feed.

pub const TICK: &str = "03";
pub const CHART: &str = "05";

// "Its frame carries them after the waiting records, as 4 bytes and 21 bytes": what an open has for its hours.
#[derive(Clone, Copy)]
pub struct Week {
    pub slots_per_hour: u32,
    pub marks: [u8; 21],
}

// "In document 01's cases and session all hours are open."
pub const ALL_OPEN: Week = Week {
    slots_per_hour: 1,
    marks: [0xFF; 21],
};

pub fn open(clients: u16, period: u32, records: u16) -> String {
    open_with(clients, period, records, &ALL_OPEN)
}

pub fn open_with(clients: u16, period: u32, records: u16, week: &Week) -> String {
    let marks: String = week.marks.iter().map(|byte| format!("{byte:02X}")).collect();
    format!("01{clients:04X}{period:08X}{records:04X}{:08X}{marks}", week.slots_per_hour)
}

pub fn submit(client: u16, deadline: u64) -> String {
    format!("02{client:04X}{deadline:016X}")
}

pub fn report(client: u16) -> String {
    format!("04{client:04X}")
}
