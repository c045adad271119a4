//! A slow model of document 01 and of document 02 as far as it has landed, written from the papers alone: nothing in it comes from
//! the definitions or the code under test. It finds things by trying, placing and drawing, so that each piece can be held to the
//! sentence above it.
pub mod calls;
pub mod chart;
pub mod hours;
pub mod lists;
pub mod plan;
pub mod refusals;
pub mod session;
pub mod shift;
pub mod sound;
pub mod tables;

pub use calls::{Answer, Call, KINDS, REFUSED};
pub use hours::Week;
pub use tables::{Counts, Queue};

// A fault that the model can be made to have, to show that a comparison with it finds faults.
#[derive(Clone, Copy, Debug, Default, PartialEq, Eq)]
pub enum Fault {
    #[default]
    None,
    // among equal ratios the first in chart order is dropped
    WrongTie,
    // a new record overwrites the one at its place
    LostRecord,
    // a period start sets submitted to 0
    ForgetfulPeriod,
    // the shift is counted when the victim is out already
    ShiftAfterDrop,
    // the shift is how many records have another place afterwards
    MovesAsShift,
    // the new record's place is given as the shift
    PlaceAsShift,
    // the shift is all records that waited
    WaitingAsShift,
    // records with the new one's own deadline are counted as behind it
    EqualsBehind,
    // refusal 15 is looked for before 7
    NoOpenSlotFirst,
    // a deadline may be past the clock by 65,535 open slots
    ReachInOpenSlots,
    // a closed slot is idle where none waits
    ClosedWhereReadsWait,
    // a closed slot is idle
    IdleInClosed,
    // no period starts with a closed slot's end
    ClosedWithoutPeriod,
    // the first of eight hours has the lowest bit
    FirstHourLowest,
    // a closed slot parts two segments
    CutAtClosed,
    // a segment ends at the open slot behind it
    RightAtNextOpen,
    // behind the first week every hour is open
    OneWeek,
}

// Each by the name that a test program takes.
pub const FAULTS: [(&str, Fault); 17] = [
    ("wrong-tie", Fault::WrongTie),
    ("lost-record", Fault::LostRecord),
    ("forgetful-period", Fault::ForgetfulPeriod),
    ("shift-after-drop", Fault::ShiftAfterDrop),
    ("moves-as-shift", Fault::MovesAsShift),
    ("place-as-shift", Fault::PlaceAsShift),
    ("waiting-as-shift", Fault::WaitingAsShift),
    ("equals-behind", Fault::EqualsBehind),
    ("no-open-slot-first", Fault::NoOpenSlotFirst),
    ("reach-in-open-slots", Fault::ReachInOpenSlots),
    ("closed-where-reads-wait", Fault::ClosedWhereReadsWait),
    ("idle-in-closed", Fault::IdleInClosed),
    ("closed-without-period", Fault::ClosedWithoutPeriod),
    ("first-hour-lowest", Fault::FirstHourLowest),
    ("cut-at-closed", Fault::CutAtClosed),
    ("right-at-next-open", Fault::RightAtNextOpen),
    ("one-week", Fault::OneWeek),
];

impl Fault {
    pub fn named(name: &str) -> Option<Fault> {
        let named = FAULTS.iter().find(|(named, _)| *named == name);
        named.map(|(_, fault)| *fault)
    }
}
