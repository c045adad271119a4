//! The recorder's read queue. Clients submit reads with deadlines, one read is served in each open slot, and where not all can
//! finish one is dropped, fairly shared among the clients. This crate wraps the calls of the proved library, each of which is
//! proved equal to its definition for all input.
//!
//! The caller lends the head, the hours and the tables and keeps them: a call allocates nothing, keeps nothing from one call to the
//! next and ends for all input. One that is refused says why and changes nothing, whatever the tables hold. [`Tables`] owns a head,
//! hours and tables of a size that is known beforehand; a [`Queue`] borrows them, or any others.
//!
//! Every method is safe with an archive of this crate's version, which a program asks for first ([`version`]). The library leaves to
//! its caller that pointers are good for their lengths, that nothing that is lent overlaps and that nobody else uses it meanwhile;
//! here Rust's borrows keep all of that.
//!
//! ```
//! use welsbell::{Answer, Hours, Refusal, Setup, Tables};
//!
//! // 8 waiting records, 2 clients
//! let mut tables = Tables::<8, 2>::new();
//! let mut queue = tables.queue();
//! // slots 2 and 3 are hour 1 of the week, which belongs to the inspectors
//! let mut hours = Hours::ALL_OPEN;
//! hours.mark(1, false);
//! assert_eq!(queue.open(Setup { clients: 2, period: 100, slots_per_hour: 2 }, hours), Answer::Opened);
//! assert_eq!(queue.submit(0, 4), Answer::Kept { number: 1, place: 0, shift: 0 });
//! // two reads that have to end with slot 0: one is too many, and the first read stands behind each
//! assert_eq!(queue.submit(0, 1), Answer::Kept { number: 2, place: 0, shift: 1 });
//! assert_eq!(queue.submit(1, 1), Answer::Dropped { number: 3, victim: 3, client: 1, shift: 1 });
//! assert_eq!(queue.tick(), Answer::Served { slot: 0, number: 2, client: 0 });
//! assert_eq!(queue.tick(), Answer::Served { slot: 1, number: 1, client: 0 });
//! // the clock is now 2
//! let answer = queue.submit(0, 2);
//! assert_eq!(answer, Answer::Refused(Refusal::Deadline));
//! assert_eq!(answer.to_string(), "refused, number 7: the deadline is not 1 to 65535 slots after the clock");
//! assert_eq!(queue.submit(0, 4), Answer::Refused(Refusal::NoOpenSlot));
//! assert_eq!(queue.tick(), Answer::Closed { slot: 2 });
//! assert_eq!(tables.head.clock, 3);
//! ```
#![no_std]

use core::fmt::{self, Display, Formatter};
use core::ptr::{from_mut, from_ref};

/// The version that this crate is written for. An archive of another version does not fit: see [`version`].
pub const VERSION: u64 = 4;

/// The version of the archive that was linked, to be compared with [`VERSION`] before the first call.
pub fn version() -> u64 {
    // SAFETY: it takes nothing and reads nothing.
    unsafe { raw::welsbell_version() }
}

/// Clients are 1 to so many, numbered from 0.
pub const MOST_CLIENTS: usize = 256;
/// A waiting table has 1 to so many records.
pub const MOST_RECORDS: usize = 2_048;
/// A period is 1 to so many slots.
pub const MOST_PERIOD: u64 = 4_294_967_295;
/// An hour has 1 to so many slots.
pub const MOST_PER_HOUR: u64 = 360_000;
/// A week has so many hours, each open or closed.
pub const HOURS: usize = 168;
/// A deadline is past the clock by 1 to so many slots, open and closed ones counted.
pub const MOST_AHEAD: u64 = 65_535;
/// A client's submitted, served and dropped are each at most this.
pub const MOST_COUNTED: u32 = 268_435_455;
/// Clock and request numbers end here.
pub const END: u64 = 281_474_976_710_655;

/// A waiting record; all zero where none waits.
#[repr(C)]
#[derive(Clone, Copy, Debug, Default, PartialEq, Eq)]
pub struct Request {
    pub deadline: u64,
    pub number: u64,
    pub client: u64,
}

/// A client's record. In sound tables submitted is served, dropped and the client's waiting records together.
#[repr(C)]
#[derive(Clone, Copy, Debug, Default, PartialEq, Eq)]
pub struct Client {
    pub submitted: u32,
    pub served: u32,
    pub dropped: u32,
}

/// What open sets; the hours come beside it.
#[repr(C)]
#[derive(Clone, Copy, Debug, Default, PartialEq, Eq)]
pub struct Setup {
    pub clients: u64,
    /// In slots, open and closed ones counted.
    pub period: u64,
    pub slots_per_hour: u64,
}

/// The hours of the week. Hour 0 begins at clock 0, and behind hour 167 the marks repeat: slot s lies in hour
/// `s / slots_per_hour % 168`. In the slots of a closed hour nothing is served. They may hold anything before an open.
#[repr(C)]
#[derive(Clone, Copy, Debug, Default, PartialEq, Eq)]
pub struct Hours {
    /// Of each hour a mark, 1 where it is open, the first hour's in the highest bit of the first byte.
    pub marks: [u8; HOURS / 8],
}

impl Hours {
    /// A week without a closed hour.
    pub const ALL_OPEN: Hours = Hours {
        marks: [0xFF; HOURS / 8],
    };

    /// Whether an hour is open; hour 168 is hour 0 again.
    pub const fn is_open(&self, hour: usize) -> bool {
        self.marks[hour % HOURS / 8] & bit(hour) != 0
    }

    /// Marks an hour as open or closed; hour 168 is hour 0 again.
    pub const fn mark(&mut self, hour: usize, is_open: bool) {
        let byte = &mut self.marks[hour % HOURS / 8];
        *byte = if is_open { *byte | bit(hour) } else { *byte & !bit(hour) };
    }
}

// The hour's mark in its byte.
const fn bit(hour: usize) -> u8 {
    0x80 >> (hour % 8)
}

/// What is passed to each call and handed back; may hold anything before an open.
#[repr(C)]
#[derive(Clone, Copy, Debug, Default, PartialEq, Eq)]
pub struct Head {
    pub setup: Setup,
    pub clock: u64,
    /// The last request number given.
    pub last: u64,
    /// How many records wait.
    pub waiting: u64,
}

// All of these are laid out as in the archive.
const _: () = assert!(size_of::<Setup>() == 24 && size_of::<Head>() == 48 && size_of::<Hours>() == 21);
const _: () = assert!(size_of::<Request>() == 24 && size_of::<Client>() == 12);

/// Why a call was refused: the first reason that matches. Nothing has changed.
#[derive(Clone, Copy, Debug, PartialEq, Eq)]
pub enum Refusal {
    /// Clients are not 1 to 256.
    Clients = 2,
    /// The period is not 1 to 4,294,967,295 slots.
    Period = 3,
    /// Slots per hour are not 1 to 360,000.
    PerHour = 13,
    /// All hours are closed.
    AllClosed = 14,
    /// The tables do not have the lengths that are needed: see [`Queue`].
    Lengths = 4,
    /// Head, hours and tables are not sound.
    Unsound = 5,
    /// The client does not exist.
    Client = 6,
    /// The deadline is not after the clock, or more than 65,535 after it, all slots counted.
    Deadline = 7,
    /// No slot from the clock to the deadline is open.
    NoOpenSlot = 15,
    /// The client's submitted is 268,435,455.
    Count = 8,
    /// The last request number has been given.
    Number = 9,
    /// The waiting table is full.
    Full = 10,
    /// The clock is at its end.
    Clock = 11,
    /// The output is shorter than the waiting count.
    Output = 12,
}

impl Refusal {
    /// Every refusal that a call gives, in the order in which they are asked.
    pub const ALL: [Refusal; 14] = [
        Refusal::Clients,
        Refusal::Period,
        Refusal::PerHour,
        Refusal::AllClosed,
        Refusal::Lengths,
        Refusal::Unsound,
        Refusal::Client,
        Refusal::Deadline,
        Refusal::NoOpenSlot,
        Refusal::Count,
        Refusal::Number,
        Refusal::Full,
        Refusal::Clock,
        Refusal::Output,
    ];

    /// Its number, 2 to 15.
    pub const fn number(self) -> u64 {
        self as u64
    }

    fn new(number: u64) -> Refusal {
        let of_number = Refusal::ALL.into_iter().find(|refusal| refusal.number() == number);
        of_number.expect("the calls are proved to give one of these numbers")
    }
}

impl Display for Refusal {
    fn fmt(&self, f: &mut Formatter) -> fmt::Result {
        f.write_str(match self {
            Refusal::Clients => "clients are not 1 to 256",
            Refusal::Period => "the period is not 1 to 4294967295 slots",
            Refusal::PerHour => "slots per hour are not 1 to 360000",
            Refusal::AllClosed => "all hours are closed",
            Refusal::Lengths => "the tables do not have the lengths that are needed",
            Refusal::Unsound => "head, hours and tables are not sound",
            Refusal::Client => "the client does not exist",
            Refusal::Deadline => "the deadline is not 1 to 65535 slots after the clock",
            Refusal::NoOpenSlot => "no slot from the clock to the deadline is open",
            Refusal::Count => "the client has submitted as many requests as can be counted",
            Refusal::Number => "the last request number has been given",
            Refusal::Full => "the waiting table is full",
            Refusal::Clock => "the clock is at its end",
            Refusal::Output => "the output is shorter than the waiting count",
        })
    }
}

impl core::error::Error for Refusal {}

/// What a call answers.
#[must_use = "a call may be refused"]
#[derive(Clone, Copy, Debug, PartialEq, Eq)]
pub enum Answer {
    Opened,
    /// The new request got this number and stands at this place in chart order, counted from 0.
    Kept {
        number: u64,
        place: u64,
        /// How many waiting records stood behind it in chart order when it was put in.
        shift: u64,
    },
    /// The new request got this number, and the victim, a request of this client, is dropped. It may be the new one.
    Dropped {
        number: u64,
        victim: u64,
        client: u64,
        /// How many waiting records stood behind the new one in chart order when it was put in, before the victim was taken out.
        shift: u64,
    },
    /// The request with this number was served in this slot.
    Served {
        slot: u64,
        number: u64,
        client: u64,
    },
    /// Nothing waited in this slot, which is open.
    Idle {
        slot: u64,
    },
    /// A client's three counts, and how many of its requests wait.
    Reported {
        client: u64,
        submitted: u64,
        served: u64,
        dropped: u64,
        waiting: u64,
    },
    /// So many start slots were written.
    Charted {
        count: u64,
    },
    /// This slot is closed: nothing was served in it, whether or not reads wait.
    Closed {
        slot: u64,
    },
    /// Nothing has changed.
    Refused(Refusal),
}

impl Answer {
    fn new(kind: u64, [a, b, c, d, e]: raw::Values) -> Answer {
        match kind {
            raw::OPENED => Answer::Opened,
            raw::KEPT => Answer::Kept {
                number: a,
                place: b,
                shift: c,
            },
            raw::DROPPED => Answer::Dropped {
                number: a,
                victim: b,
                client: c,
                shift: d,
            },
            raw::SERVED => Answer::Served {
                slot: a,
                number: b,
                client: c,
            },
            raw::IDLE => Answer::Idle { slot: a },
            raw::REPORTED => Answer::Reported {
                client: a,
                submitted: b,
                served: c,
                dropped: d,
                waiting: e,
            },
            raw::CHARTED => Answer::Charted { count: a },
            raw::CLOSED => Answer::Closed { slot: a },
            raw::REFUSED => Answer::Refused(Refusal::new(a)),
            _ => unreachable!("the calls are proved to answer one of these kinds"),
        }
    }
}

impl Display for Answer {
    fn fmt(&self, f: &mut Formatter) -> fmt::Result {
        match *self {
            Answer::Opened => write!(f, "opened"),
            Answer::Kept { number, place, shift } => {
                write!(f, "number {number} is kept, at place {place}, shift {shift}")
            }
            Answer::Dropped {
                number,
                victim,
                client,
                shift,
            } => {
                write!(
                    f,
                    "number {number}, shift {shift}, is one too many, number {victim} of client {client} is dropped"
                )
            }
            Answer::Served { slot, number, client } => {
                write!(f, "number {number} of client {client} is served in slot {slot}")
            }
            Answer::Idle { slot } => write!(f, "nothing waits in slot {slot}"),
            Answer::Reported {
                client,
                submitted,
                served,
                dropped,
                waiting,
            } => {
                write!(
                    f,
                    "client {client}: {submitted} submitted, {served} served, {dropped} dropped, {waiting} waiting"
                )
            }
            Answer::Charted { count } => write!(f, "{count} waiting"),
            Answer::Closed { slot } => write!(f, "slot {slot} is closed"),
            Answer::Refused(refusal) => write!(f, "refused, number {}: {refusal}", refusal.number()),
        }
    }
}

/// A head, hours and tables that are owned, for so many waiting records and clients: no allocation, all of it inline.
/// [`Tables::queue`] lends them.
#[derive(Clone, Debug, PartialEq, Eq)]
pub struct Tables<const RECORDS: usize, const CLIENTS: usize> {
    pub head: Head,
    pub hours: Hours,
    pub waiting: [Request; RECORDS],
    pub clients: [Client; CLIENTS],
}

impl<const RECORDS: usize, const CLIENTS: usize> Tables<RECORDS, CLIENTS> {
    /// All zero, to be opened. It is `const`, so that tables may be a `static`.
    pub const fn new() -> Self {
        Tables {
            head: Head {
                setup: Setup {
                    clients: 0,
                    period: 0,
                    slots_per_hour: 0,
                },
                clock: 0,
                last: 0,
                waiting: 0,
            },
            hours: Hours { marks: [0; HOURS / 8] },
            waiting: [Request {
                deadline: 0,
                number: 0,
                client: 0,
            }; RECORDS],
            clients: [Client {
                submitted: 0,
                served: 0,
                dropped: 0,
            }; CLIENTS],
        }
    }

    /// The queue over these tables.
    pub fn queue(&mut self) -> Queue<'_> {
        Queue {
            head: &mut self.head,
            hours: &mut self.hours,
            waiting: &mut self.waiting,
            clients: &mut self.clients,
        }
    }
}

impl<const RECORDS: usize, const CLIENTS: usize> Default for Tables<RECORDS, CLIENTS> {
    fn default() -> Self {
        Tables::new()
    }
}

/// The head, the hours and the tables as they are lent: a waiting table of 1 to 2,048 records, and a client table of one record a
/// client.
///
/// They may be looked at between calls, and written too. Every call but open first asks whether they are sound, and is refused
/// where they are not:
/// - [`Refusal::Lengths`]: the waiting table has no records or more than 2,048, the client table has not as many records as the
///   head has clients, or the waiting count exceeds the waiting table's length;
/// - [`Refusal::Unsound`]: head, hours and tables are not sound.
#[derive(Debug)]
pub struct Queue<'a> {
    pub head: &'a mut Head,
    pub hours: &'a mut Hours,
    pub waiting: &'a mut [Request],
    pub clients: &'a mut [Client],
}

// Makes an exported call with head, hours and tables, then its own arguments, and hands back its answer. The pointers are for
// reading and writing (`as_mut_ptr`), or for reading only (`as_ptr`). Only open is declared to write the hours.
macro_rules! lend {
    ($exported:ident, $queue:ident, $one:path, $pointer:ident $(, $argument:expr)*) => {{
        let mut values = [0; 5];
        // SAFETY: the head, the hours, a setup, marks and the values are one of each, and each other pointer is good for as much as
        // the length behind it says, since they are slices: a client's record is three numbers and nothing else, so that so many
        // records are three times as many numbers. All are borrowed until the call is over, those to be written through by nobody
        // else.
        let kind = unsafe {
            raw::$exported(
                $one($queue.head),
                $one($queue.hours),
                $queue.waiting.$pointer(),
                $queue.waiting.len(),
                $queue.clients.$pointer(),
                3 * $queue.clients.len(),
                $($argument,)*
                &mut values,
            )
        };
        Answer::new(kind, values)
    }};
}

impl Queue<'_> {
    /// Begins anew, whatever head, hours and tables hold: setup and hours become these, clock, last number and waiting count become
    /// 0 and every record zero. Gives `Opened`.
    ///
    /// Refusals: `Clients`, `Period`, `PerHour`, `AllClosed`, and `Lengths` where the waiting table has no records or more than
    /// 2,048, or the client table has not as many records as the setup has clients.
    pub fn open(&mut self, setup: Setup, hours: Hours) -> Answer {
        lend!(welsbell_open, self, from_mut, as_mut_ptr, &setup, &hours)
    }

    /// A client submits a request, which is to be served in an open slot that ends by the deadline: slot `deadline - 1` at the
    /// latest. Gives `Kept` if every request can still finish. Otherwise it gives `Dropped`: of the requests whose removal helps,
    /// the new one included, one goes whose client has the smallest miss ratio, and among equals the last in chart order.
    ///
    /// Refusals, besides `Lengths` and `Unsound`: `Client`, `Deadline`, `NoOpenSlot`, `Count`, `Number`, `Full`.
    pub fn submit(&mut self, client: u64, deadline: u64) -> Answer {
        lend!(welsbell_submit, self, from_mut, as_mut_ptr, client, deadline)
    }

    /// One slot passes, the one that starts at the clock. Gives `Closed` if it is closed. Otherwise it gives `Served` with the
    /// first waiting record, which is taken out, or `Idle` where none waits. Then, in each case, the clock rises by 1. Where it
    /// comes to a multiple of the period, each client's submitted becomes its waiting count, and served and dropped become 0.
    ///
    /// Refusals, besides `Lengths` and `Unsound`: `Clock`.
    pub fn tick(&mut self) -> Answer {
        lend!(welsbell_tick, self, from_mut, as_mut_ptr)
    }

    /// Gives `Reported`, a client's three counts and its waiting count, and changes nothing.
    ///
    /// Refusals, besides `Lengths` and `Unsound`: `Client`.
    pub fn report(&self, client: u64) -> Answer {
        lend!(welsbell_report, self, from_ref, as_ptr, client)
    }

    /// Writes one start slot a waiting record, the latest open one that it can have, in chart order to the front of the output;
    /// entries beyond are untouched. Gives `Charted` with their count. Head, hours and tables stay as they are.
    ///
    /// Refusals, besides `Lengths` and `Unsound`: `Output`.
    pub fn chart(&self, output: &mut [u64]) -> Answer {
        lend!(welsbell_chart, self, from_ref, as_ptr, output.as_mut_ptr(), output.len())
    }
}

/// The exported calls as they are linked: a head, hours, a setup, marks and the values are a pointer each, a table is a pointer and
/// then a length. The client table's length is in numbers, three a record. The result is the answer's kind; its values go to the
/// front of the five, and those behind them stay. The header `welsbell.h` says the same in C.
///
/// # Safety
///
/// Each pointer has to be aligned and not null: one to a table or an output good for as much as the length behind it says, even
/// where that is 0, and one to a head, hours, a setup, marks or values for one of these. Nothing that is lent to a call may overlap,
/// and nobody else may write it, or use what is written, until the call is over.
pub mod raw {
    use crate::{Client, Head, Hours, Request, Setup};

    pub const OPENED: u64 = 0x81;
    pub const KEPT: u64 = 0x82;
    pub const DROPPED: u64 = 0x83;
    pub const SERVED: u64 = 0x84;
    pub const IDLE: u64 = 0x85;
    pub const REPORTED: u64 = 0x86;
    pub const CHARTED: u64 = 0x88;
    pub const CLOSED: u64 = 0x89;
    pub const REFUSED: u64 = 0xFF;

    /// The values of an answer.
    pub type Values = [u64; 5];

    extern "C" {
        /// The archive's version. It asks nothing of its caller.
        pub fn welsbell_version() -> u64;
    }

    // Declares a call: head and tables, to be written (`mut`) or only read (`const`), the hours in the same way, its own arguments,
    // and the values.
    macro_rules! exported {
        ($name:ident, $access:tt, $hours:tt $(, $argument:ident: $type:ty)*) => {
            extern "C" {
                pub fn $name(
                    head: *$access Head,
                    hours: *$hours Hours,
                    waiting: *$access Request,
                    waiting_length: usize,
                    clients: *$access Client,
                    client_numbers: usize,
                    $($argument: $type,)*
                    values: *mut Values,
                ) -> u64;
            }
        };
    }

    exported!(welsbell_open, mut, mut, setup: *const Setup, marks: *const Hours);
    exported!(welsbell_submit, mut, const, client: u64, deadline: u64);
    exported!(welsbell_tick, mut, const);
    exported!(welsbell_report, const, const, client: u64);
    exported!(welsbell_chart, const, const, output: *mut u64, output_length: usize);
}
