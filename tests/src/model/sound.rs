//! "Tables are sound when", clause by clause in the paper's order.
use super::hours::PER_HOUR;
use super::tables::{stands_before, Queue, Request, CLIENTS, COUNTED, PERIODS, TO_THE_END};

// What a clause is called here, and whether it holds of tables of any lengths with anything in them.
pub type Clause = (&'static str, fn(&Queue) -> bool);

pub const CLAUSES: [Clause; 14] = [
    // "the head is within these bounds and those of every value document 02 adds to it": 13 and 14, "a sound head has neither"
    ("clients in bounds", |queue| CLIENTS.contains(&queue.head.setup.clients)),
    ("period in bounds", |queue| PERIODS.contains(&queue.head.setup.period)),
    ("slots per hour in bounds", |queue| {
        PER_HOUR.contains(&queue.head.setup.slots_per_hour)
    }),
    ("an hour open", |queue| !queue.week().is_all_closed()),
    ("clock in bounds", |queue| TO_THE_END.contains(&queue.head.clock)),
    ("last number in bounds", |queue| TO_THE_END.contains(&queue.head.last)),
    ("chart order", is_in_chart_order),
    ("deadlines past the clock", are_deadlines_past_the_clock),
    ("numbers given", are_numbers_given),
    ("clients exist", do_clients_exist),
    ("room up to each deadline", is_room_up_to_each_deadline),
    ("zero behind the waiting", is_zero_behind_the_waiting),
    ("submitted is the sum", is_submitted_the_sum),
    ("submitted in bounds", is_submitted_in_bounds),
];

pub fn is_sound(queue: &Queue) -> bool {
    CLAUSES.iter().all(|(_, holds)| holds(queue))
}

// "the waiting records stand in chart order (earlier deadline first, equal deadlines by smaller number, no two equal in both)"
fn is_in_chart_order(queue: &Queue) -> bool {
    queue.waiting().windows(2).all(|pair| stands_before(&pair[0], &pair[1]))
}

// "each deadline is past the clock by 1 to 65,535, all slots counted"
fn are_deadlines_past_the_clock(queue: &Queue) -> bool {
    queue.waiting().iter().all(|request| queue.is_in_reach(request.deadline))
}

// "each number is from 1 to the last given"
fn are_numbers_given(queue: &Queue) -> bool {
    let given = 1..=queue.head.last;
    queue.waiting().iter().all(|request| given.contains(&request.number))
}

// "each client exists"
fn do_clients_exist(queue: &Queue) -> bool {
    queue.waiting().iter().all(|request| request.client < queue.head.setup.clients)
}

// "for each deadline D in the table, the records with deadline at most D number at most D minus the clock". Document 02: "only
// open ones count, in sound tables too".
fn is_room_up_to_each_deadline(queue: &Queue) -> bool {
    let deadlines: Vec<u64> = queue.waiting().iter().map(|request| request.deadline).collect();
    let up_to = |d: u64| deadlines.iter().filter(|&&deadline| deadline <= d).count();
    let slots = queue.slots_for(queue.waiting());
    deadlines.iter().all(|&d| up_to(d) <= open_up_to(&slots, d))
}

// How many of these slots, which come one after the other, end by a deadline.
pub fn open_up_to(slots: &[u64], d: u64) -> usize {
    slots.partition_point(|&slot| slot < d)
}

// "every record behind the waiting ones is zero"
fn is_zero_behind_the_waiting(queue: &Queue) -> bool {
    queue.behind_the_waiting().iter().all(|record| *record == Request::default())
}

// "for each client submitted = served + dropped + its waiting records"
fn is_submitted_the_sum(queue: &Queue) -> bool {
    (0..)
        .zip(&queue.clients)
        .all(|(client, counts)| counts.submitted == counts.served + counts.dropped + queue.waiting_of(client))
}

// "submitted within its bound"
fn is_submitted_in_bounds(queue: &Queue) -> bool {
    queue.clients.iter().all(|counts| COUNTED.contains(&counts.submitted))
}
