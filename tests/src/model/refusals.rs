//! "Refusals, first match wins". Number 1 is the session's.
use super::calls::Call;
use super::hours::{Hours, Week, PER_HOUR};
use super::sound::is_sound;
use super::tables::{Queue, Setup, CLIENTS, COUNTED, PERIODS, RECORDS, TO_THE_END};
use super::Fault;

type Condition = fn(&Queue, &Call) -> bool;

// Document 02: 13 "after 3", 14 "after 13", 15 "after 7".
const REFUSALS: [(u64, Condition); 14] = [
    (2, are_clients_outside),
    (3, is_period_outside),
    (13, are_slots_per_hour_outside),
    (14, are_all_hours_closed),
    (4, are_lengths_wrong),
    (5, are_tables_unsound),
    (6, is_no_client),
    (7, is_deadline_out_of_reach),
    (15, is_no_slot_open),
    (8, is_submitted_at_its_bound),
    (9, is_last_number_given),
    (10, is_table_full),
    (11, is_clock_at_its_end),
    (12, is_output_short),
];

// Where 7 stands among them, with 15 behind it.
const AT_7: usize = 7;

// "Each is given whenever its condition holds and no earlier one does, and only then."
pub fn refusal(queue: &Queue, call: &Call) -> Option<u64> {
    let mut refusals = REFUSALS;
    if queue.fault == Fault::NoOpenSlotFirst {
        refusals.swap(AT_7, AT_7 + 1);
    }
    let first = refusals.iter().find(|(_, holds)| holds(queue, call));
    first.map(|(number, _)| *number)
}

// "Open: clients outside 1 to 256."
fn are_clients_outside(_: &Queue, call: &Call) -> bool {
    matches!(call, Call::Open { setup, .. } if !CLIENTS.contains(&setup.clients))
}

// "Open: period outside its bounds."
fn is_period_outside(_: &Queue, call: &Call) -> bool {
    matches!(call, Call::Open { setup, .. } if !PERIODS.contains(&setup.period))
}

// "13, slots per hour outside 1 to 360,000"
fn are_slots_per_hour_outside(_: &Queue, call: &Call) -> bool {
    matches!(call, Call::Open { setup, .. } if !PER_HOUR.contains(&setup.slots_per_hour))
}

// "14, all hours closed"
fn are_all_hours_closed(queue: &Queue, call: &Call) -> bool {
    let is_closed = |setup: &Setup, hours: &Hours| Week::new(setup.slots_per_hour, *hours, queue.fault).is_all_closed();
    matches!(call, Call::Open { setup, hours } if is_closed(setup, hours))
}

// "All calls: the waiting table has no records or more than 2,048, or the client table's length differs from the number of
// clients (in open, the number given). All but open: the waiting count exceeds the waiting table's length." A client's record
// is three numbers.
fn are_lengths_wrong(queue: &Queue, call: &Call) -> bool {
    let (clients, waiting) = match call {
        Call::Open { setup, .. } => (setup.clients, 0),
        _ => (queue.head.setup.clients, queue.head.waiting),
    };
    let records = queue.records.len();
    !RECORDS.contains(&records) || queue.client_numbers() != 3 * u128::from(clients) || waiting > records as u64
}

// "All calls but open: the tables are not sound."
fn are_tables_unsound(queue: &Queue, call: &Call) -> bool {
    !matches!(call, Call::Open { .. }) && !is_sound(queue)
}

// "Submit and report: the client does not exist."
fn is_no_client(queue: &Queue, call: &Call) -> bool {
    matches!(call, Call::Submit { client, .. } | Call::Report { client } if *client >= queue.head.setup.clients)
}

// "Submit: the deadline is not after the clock, or more than 65,535 after it, all slots counted."
fn is_deadline_out_of_reach(queue: &Queue, call: &Call) -> bool {
    matches!(call, Call::Submit { deadline, .. } if !queue.is_in_reach(*deadline))
}

// "15, no open slot from the clock to the deadline"
fn is_no_slot_open(queue: &Queue, call: &Call) -> bool {
    let is_none = |deadline: u64| queue.week().open_slots(queue.head.clock, deadline).next().is_none();
    matches!(call, Call::Submit { deadline, .. } if is_none(*deadline))
}

// "Submit: the client's submitted is 268,435,455."
fn is_submitted_at_its_bound(queue: &Queue, call: &Call) -> bool {
    matches!(call, Call::Submit { client, .. } if queue.clients[*client as usize].submitted == *COUNTED.end())
}

// "Submit: the last request number has been given."
fn is_last_number_given(queue: &Queue, call: &Call) -> bool {
    matches!(call, Call::Submit { .. }) && queue.head.last == *TO_THE_END.end()
}

// "Submit: the waiting count equals the table's length."
fn is_table_full(queue: &Queue, call: &Call) -> bool {
    matches!(call, Call::Submit { .. }) && queue.head.waiting == queue.records.len() as u64
}

// "Tick: the clock is at its end."
fn is_clock_at_its_end(queue: &Queue, call: &Call) -> bool {
    matches!(call, Call::Tick) && queue.head.clock == *TO_THE_END.end()
}

// "Chart: the output is shorter than the waiting count."
fn is_output_short(queue: &Queue, call: &Call) -> bool {
    matches!(call, Call::Chart { entries } if (*entries as u64) < queue.head.waiting)
}
