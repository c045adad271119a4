// Holds the exported calls to documents 01 and 02, case by case. After each call the answer, its values, the head, every record of
// both tables and the output are held to what the case expects, which is written out or comes by simple arithmetic.
#[path = "library/hours.rs"]
mod hours;

use std::fmt::Debug;
use std::process::exit;
use std::thread;
use tests::calls::*;
use tests::damages::THIRDS;

// A waiting record: deadline, number, client.
type Row = (u64, u64, u64);

// A client's submitted, served, dropped.
type Counts = (u32, u32, u32);

const FRESH: Counts = (0, 0, 0);

// No value of an answer.
const UNWRITTEN: u64 = u64::MAX;

// Writes the head, the records with zeros behind them, and the counts.
fn write(t: &mut Tables, head: Head, rows: &[Row], counts: &[Counts]) {
    t.head = head;
    t.waiting.fill(Request::default());
    for (record, &(deadline, number, client)) in t.waiting.iter_mut().zip(rows) {
        *record = request(deadline, number, client);
    }
    for (client, &(submitted, served, dropped)) in t.clients_mut().iter_mut().zip(counts) {
        *client = Client {
            submitted,
            served,
            dropped,
        };
    }
}

// Tables of so many records, and of as many clients as counts.
fn tables(records: usize, head: Head, rows: &[Row], counts: &[Counts]) -> Tables {
    let mut t = opened(records, counts.len() as u64);
    write(&mut t, head, rows, counts);
    t
}

// Tables of so many records just opened for so many clients, with a period that no case reaches.
fn opened(records: usize, clients: u64) -> Tables {
    Tables::zero(head(clients, 1_000_000, 0, 0, 0), records)
}

// The library under test, the tables lent to it, and what they were before the last call.
struct Library {
    case: String,
    calls: u32,
    call: String,
    answer: Vec<u64>,
    tables: Tables,
    output: Vec<u64>,
    before: Tables,
    output_before: Vec<u64>,
}

// The calls.
impl Library {
    fn lend(&mut self, tables: Tables) {
        self.tables = tables;
    }

    fn make(&mut self, name: String, call: impl FnOnce(&mut Tables, &mut [u64], &mut Values) -> u64) -> &Library {
        (self.before, self.output_before) = (self.tables.clone(), self.output.clone());
        let mut values = [UNWRITTEN; 5];
        let kind = call(&mut self.tables, &mut self.output, &mut values);
        (self.call, self.answer) = (name, answer(kind, &values));
        // what stands behind the answer's values must stay; if not, it shows as part of the answer
        let beyond = &values[self.answer.len() - 1..];
        if beyond.iter().any(|&value| value != UNWRITTEN) {
            self.answer.extend(beyond);
        }
        self.calls += 1;
        self
    }

    // With one slot an hour and every hour open, unless more is said.
    #[must_use]
    fn open(&mut self, clients: u64, period: u64) -> &Library {
        self.open_with(setup(clients, period), ALL_OPEN)
    }

    #[must_use]
    fn open_with(&mut self, setup: Setup, hours: Hours) -> &Library {
        let name = format!("open {setup:?} {hours:?}");
        self.make(name, |t, _, v| open(t, &setup, &hours, v))
    }

    #[must_use]
    fn submit(&mut self, client: u64, deadline: u64) -> &Library {
        let name = format!("submit {client} {deadline}");
        self.make(name, |t, _, v| submit(t, client, deadline, v))
    }

    #[must_use]
    fn tick(&mut self) -> &Library {
        self.make("tick".into(), |t, _, v| tick(t, v))
    }

    #[must_use]
    fn report(&mut self, client: u64) -> &Library {
        self.make(format!("report {client}"), |t, _, v| report(t, client, v))
    }

    // With an output of so many entries, none of them a start slot.
    #[must_use]
    fn chart(&mut self, length: usize) -> &Library {
        self.output = vec![u64::MAX; length];
        self.make(format!("chart {length}"), chart)
    }
}

// What is expected of the last call: its answer's values, then the rows that wait afterwards and all clients' counts. The rest
// of the head follows from those, and everything else is to be as it was.
impl Library {
    fn opened(&self, clients: u64, period: u64) {
        self.opened_with(setup(clients, period), ALL_OPEN);
    }

    fn opened_with(&self, setup: Setup, hours: Hours) {
        let counts = vec![FRESH; setup.clients as usize];
        let mut expected = self.before.clone();
        write(
            &mut expected,
            Head {
                setup,
                ..Head::default()
            },
            &[],
            &counts,
        );
        expected.hours = hours;
        self.hold(&[OPENED], &expected, &self.output_before);
    }

    fn kept(&self, number: u64, place: u64, shift: u64, rows: &[Row], counts: &[Counts]) {
        // each record that waited stood before the new one or behind it
        self.same("place and shift", &[self.before.head.waiting], &[place + shift]);
        self.gives(&[KEPT, number, place, shift], self.submitted(number, rows), rows, counts);
    }

    fn dropped(&self, number: u64, victim: u64, client: u64, shift: u64, rows: &[Row], counts: &[Counts]) {
        let head = self.submitted(number, rows);
        self.gives(&[DROPPED, number, victim, client, shift], head, rows, counts);
    }

    fn served(&self, slot: u64, number: u64, client: u64, rows: &[Row], counts: &[Counts]) {
        self.gives(&[SERVED, slot, number, client], self.ticked(slot, rows), rows, counts);
    }

    fn idle(&self, slot: u64, counts: &[Counts]) {
        self.gives(&[IDLE, slot], self.ticked(slot, &[]), &[], counts);
    }

    // Rows are those that waited before, and counts as before unless a period starts.
    fn closed(&self, slot: u64, rows: &[Row], counts: &[Counts]) {
        self.same("waiting count", &[self.before.head.waiting], &[rows.len() as u64]);
        self.gives(&[CLOSED, slot], self.ticked(slot, rows), rows, counts);
    }

    fn refused(&self, number: u64) {
        self.hold(&[REFUSED, number], &self.before, &self.output_before);
    }

    fn reported(&self, values: [u64; 5]) {
        self.hold(&[&[REPORT], &values[..]].concat(), &self.before, &self.output_before);
    }

    fn charted(&self, starts: &[u64]) {
        let output = [starts, &self.output_before[starts.len()..]].concat();
        self.hold(&[CHART, starts.len() as u64], &self.before, &output);
    }

    // The head after a submit that gave this number.
    fn submitted(&self, number: u64, rows: &[Row]) -> Head {
        Head {
            last: number,
            waiting: rows.len() as u64,
            ..self.before.head
        }
    }

    // The head after a tick in this slot.
    fn ticked(&self, slot: u64, rows: &[Row]) -> Head {
        Head {
            clock: slot + 1,
            waiting: rows.len() as u64,
            ..self.before.head
        }
    }

    fn gives(&self, answer: &[u64], head: Head, rows: &[Row], counts: &[Counts]) {
        let mut expected = self.before.clone();
        write(&mut expected, head, rows, counts);
        self.hold(answer, &expected, &self.output_before);
    }

    fn hold(&self, answer: &[u64], expected: &Tables, output: &[u64]) {
        self.same("answer", answer, &self.answer);
        self.same("head", &[expected.head], &[self.tables.head]);
        self.same("hours", &expected.hours.marks, &self.tables.hours.marks);
        self.same("waiting", &expected.waiting, &self.tables.waiting);
        self.same("clients", expected.clients(), self.tables.clients());
        self.same("client numbers", &expected.client_numbers, &self.tables.client_numbers);
        self.same("output", output, &self.output);
    }

    fn same<T: PartialEq + Debug>(&self, what: &str, expected: &[T], came: &[T]) {
        if expected == came {
            return;
        }
        println!("{}: call {}, {}: {what}", self.case, self.calls, self.call);
        if expected.len().max(came.len()) <= 5 {
            println!("expected {expected:?}\n    came {came:?}");
        } else if let Some(i) = (0..expected.len()).find(|&i| expected[i] != came[i]) {
            println!("at {i} expected {:?}\n    came {:?}", expected[i], came[i]);
        }
        exit(1);
    }
}

fn session(l: &mut Library) {
    l.lend(tables(8, head(9, 9, 9, 9, 9), &[(9, 9, 9); 8], &[(9, 9, 9); 2]));
    l.open(2, 100).opened(2, 100);
    l.submit(0, 1).kept(1, 0, 0, &[(1, 1, 0)], &[(1, 0, 0), FRESH]);
    let rows = [(1, 1, 0), (2, 2, 1)];
    l.submit(1, 2).kept(2, 1, 0, &rows, &[(1, 0, 0), (1, 0, 0)]);
    l.submit(1, 1).dropped(3, 3, 1, 1, &rows, &[(1, 0, 0), (2, 0, 1)]);
    l.chart(8).charted(&[0, 1]);
    l.tick().served(0, 1, 0, &rows[1..], &[(1, 1, 0), (2, 0, 1)]);
    l.report(1).reported([1, 2, 0, 1, 1]);
}

fn idle_ticks(l: &mut Library) {
    l.lend(tables(4, head(1, 3, 0, 0, 0), &[], &[FRESH]));
    for slot in 0..7 {
        l.tick().idle(slot, &[FRESH]);
    }
}

fn deadlines(l: &mut Library) {
    l.lend(opened(4, 1));
    for deadline in [0, MOST_AHEAD + 1, 1 << 32, u64::MAX] {
        l.submit(0, deadline).refused(7);
    }
    l.submit(0, 1).kept(1, 0, 0, &[(1, 1, 0)], &[(1, 0, 0)]);
    l.lend(opened(4, 1));
    l.submit(0, MOST_AHEAD).kept(1, 0, 0, &[(MOST_AHEAD, 1, 0)], &[(1, 0, 0)]);
    l.lend(tables(4, head(1, 9, 5, 0, 0), &[], &[FRESH]));
    l.submit(0, 5).refused(7);
    l.submit(0, 65_541).refused(7);
    l.submit(0, 6).kept(1, 0, 0, &[(6, 1, 0)], &[(1, 0, 0)]);
    l.submit(0, 65_540).kept(2, 1, 0, &[(6, 1, 0), (65_540, 2, 0)], &[(2, 0, 0)]);
}

fn third_at_two(l: &mut Library) {
    let rows = [(2, 1, 0), (2, 2, 0)];
    l.lend(opened(4, 2));
    l.submit(0, 2).kept(1, 0, 0, &rows[..1], &[(1, 0, 0), FRESH]);
    l.submit(0, 2).kept(2, 1, 0, &rows, &[(2, 0, 0), FRESH]);
    l.submit(1, 2).dropped(3, 3, 1, 0, &rows, &[(2, 0, 0), (1, 0, 1)]);
}

// Client 0 waits for deadline 1, and client 1 submits deadline 1 too; its counts are those before.
fn one_slot_for_two(l: &mut Library, waits: Counts, submits: Counts, is_first_lost: bool) {
    l.lend(tables(4, head(2, 100, 0, 7, 1), &[(1, 7, 0)], &[waits, submits]));
    let (w, s) = (waits, (submits.0 + 1, submits.1, submits.2));
    if is_first_lost {
        l.submit(1, 1).dropped(8, 7, 0, 0, &[(1, 8, 1)], &[(w.0, w.1, w.2 + 1), s]);
    } else {
        l.submit(1, 1).dropped(8, 8, 1, 0, &[(1, 7, 0)], &[w, (s.0, s.1, s.2 + 1)]);
    }
}

fn ratios(l: &mut Library) {
    // 1 of 4 against 1 of 2, and the other way about
    one_slot_for_two(l, (4, 2, 1), (1, 0, 1), true);
    one_slot_for_two(l, (2, 0, 1), (3, 2, 1), false);
    // 1 of 3 is 2 of 6: the last in chart order
    one_slot_for_two(l, (3, 1, 1), (5, 3, 2), false);
    one_slot_for_two(l, (6, 3, 2), (2, 1, 1), false);
    // 1 of 2 twice, where without the new request client 1 would be at 1 of 1
    one_slot_for_two(l, (2, 0, 1), (1, 0, 1), false);
    // more dropped but of more submitted: 2 of 9 against 1 of 3
    one_slot_for_two(l, (9, 6, 2), (2, 1, 1), true);
    one_slot_for_two(l, (3, 1, 1), (8, 6, 2), false);
    // 0 of 1 against 0 of 2
    one_slot_for_two(l, (1, 0, 0), (1, 1, 0), false);
}

// Two fractions whose difference is 1 over the product of what they are of, nearly 2 to the 56th: too little for a double.
fn close_ratios(l: &mut Library) {
    let waiting = |(dropped, of): (u32, u32)| (of, of - dropped - 1, dropped);
    let submitting = |(dropped, of): (u32, u32)| (of - 1, of - dropped - 1, dropped);
    let less = (134_217_726, 268_435_453);
    let more = (134_217_727, 268_435_455);
    one_slot_for_two(l, waiting(less), submitting(more), true);
    one_slot_for_two(l, waiting(more), submitting(less), false);
    one_slot_for_two(l, waiting(more), submitting(more), false);
}

fn charts(l: &mut Library) {
    let rows = [(3, 1, 0), (5, 2, 0), (10, 3, 0), (10, 4, 0)];
    l.lend(opened(8, 1));
    for n in 1..=4 {
        let (deadline, number, _) = rows[n - 1];
        l.submit(0, deadline)
            .kept(number, number - 1, 0, &rows[..n], &[(n as u32, 0, 0)]);
    }
    l.chart(4).charted(&[2, 4, 8, 9]);
    let rows = [(3, 1, 0), (4, 5, 0), (5, 2, 0), (10, 3, 0), (10, 4, 0)];
    l.submit(0, 4).kept(5, 1, 3, &rows, &[(5, 0, 0)]);
    for just_enough_or_more in [5, 6, 3_000] {
        l.chart(just_enough_or_more).charted(&[2, 3, 4, 8, 9]);
    }
    l.chart(4).refused(12);
    l.chart(0).refused(12);
    l.lend(opened(1, 1));
    l.chart(0).charted(&[]);
    l.chart(2).charted(&[]);
}

fn one_record(l: &mut Library) {
    l.lend(opened(1, 1));
    l.submit(0, 5).kept(1, 0, 0, &[(5, 1, 0)], &[(1, 0, 0)]);
    l.submit(0, 5).refused(10);
    l.submit(0, 1).refused(10);
    l.chart(1).charted(&[4]);
    l.tick().served(0, 1, 0, &[], &[(1, 1, 0)]);
    l.submit(0, 2).kept(2, 0, 0, &[(2, 2, 0)], &[(2, 1, 0)]);
    l.tick().served(1, 2, 0, &[], &[(2, 2, 0)]);
    l.tick().idle(2, &[(2, 2, 0)]);
}

// Falling deadlines, so that each request goes to the front: number m has deadline 2,049 - m.
fn full_from_the_front(l: &mut Library) {
    let rows: Vec<Row> = (1..=2_048).map(|deadline| (deadline, 2_049 - deadline, 0)).collect();
    l.lend(opened(MOST_RECORDS, 1));
    for n in 1..=2_048 {
        let waiting = &rows[2_048 - n as usize..];
        l.submit(0, 2_049 - n).kept(n, 0, n - 1, waiting, &[(n as u32, 0, 0)]);
    }
    for deadline in [1, 1_024, 2_048, 2_049, 65_535] {
        l.submit(0, deadline).refused(10);
    }
    let starts: Vec<u64> = (0..2_048).collect();
    l.chart(2_048).charted(&starts);
    l.chart(2_047).refused(12);
    l.report(0).reported([0, 2_048, 0, 0, 2_048]);
    l.tick().served(0, 2_048, 0, &rows[1..], &[(2_048, 1, 0)]);
    // a record is free again, but no slot up to 2,048
    l.submit(0, 2).dropped(2_049, 2_049, 0, 2_046, &rows[1..], &[(2_049, 1, 1)]);
    let rows = [&rows[1..], &[(2_049, 2_050, 0)]].concat();
    l.submit(0, 2_049).kept(2_050, 2_047, 0, &rows, &[(2_050, 1, 1)]);
    for (slot, n) in (1..).zip(1..=2_048) {
        let (_, number, client) = rows[n - 1];
        l.tick().served(slot, number, client, &rows[n..], &[(2_050, 1 + n as u32, 1)]);
    }
    l.tick().idle(2_049, &[(2_050, 2_049, 1)]);
}

// Number m has deadline m, and is the client's whose turn it is.
fn in_turn() -> Vec<Row> {
    (1..=2_048).map(|m| (m, m, (m - 1) % 256)).collect()
}

fn full_of_many_clients(l: &mut Library) {
    let rows = in_turn();
    // how many of the first n are each client's
    let of_first = |n: usize| (0..256).map(move |c| ((n + 255 - c) / 256) as u32);
    l.lend(opened(MOST_RECORDS, 256));
    for n in 1..=2_048 {
        let (deadline, number, client) = rows[n - 1];
        let counts: Vec<Counts> = of_first(n).map(|submitted| (submitted, 0, 0)).collect();
        l.submit(client, deadline).kept(number, number - 1, 0, &rows[..n], &counts);
    }
    for client in 0..256 {
        l.submit(client, 2_049).refused(10);
    }
    l.submit(256, 2_049).refused(6);
    for n in 1..=2_048 {
        let (deadline, number, client) = rows[n - 1];
        let counts: Vec<Counts> = of_first(n).map(|served| (8, served, 0)).collect();
        l.tick().served(deadline - 1, number, client, &rows[n..], &counts);
        let served = counts[client as usize].1.into();
        l.report(client).reported([client, 8, served, 0, 8 - served]);
    }
}

fn clock_at_its_end(l: &mut Library) {
    l.lend(tables(4, head(1, 100, END, 0, 0), &[], &[FRESH]));
    l.tick().refused(11);
    l.submit(0, END).refused(7);
    l.submit(0, END + 65_536).refused(7);
    let rows = [(END + 1, 2, 0), (END + 65_535, 1, 0)];
    l.submit(0, END + 65_535).kept(1, 0, 0, &rows[1..], &[(1, 0, 0)]);
    l.submit(0, END + 1).kept(2, 0, 1, &rows, &[(2, 0, 0)]);
    l.submit(0, END + 1).dropped(3, 3, 0, 1, &rows, &[(3, 0, 1)]);
    l.tick().refused(11);
    l.chart(2).charted(&[END, END + 65_534]);
    l.report(0).reported([0, 3, 0, 1, 2]);
    // the last tick; the end is a multiple of 65,535
    for (period, counts) in [(100, (6, 3, 2)), (65_535, (1, 0, 0))] {
        let rows = [(END, 4, 0), (END + 9, 5, 0)];
        l.lend(tables(4, head(1, period, END - 1, 5, 2), &rows, &[(6, 2, 2)]));
        l.tick().served(END - 1, 4, 0, &rows[1..], &[counts]);
        l.tick().refused(11);
    }
    l.lend(tables(1, head(1, 100, END - 1, 0, 0), &[], &[FRESH]));
    l.tick().idle(END - 1, &[FRESH]);
}

fn last_number(l: &mut Library) {
    l.lend(tables(4, head(1, 100, 0, END, 1), &[(9, END, 0)], &[(1, 0, 0)]));
    l.submit(0, 9).refused(9);
    let rows = [(9, END - 1, 0), (9, END, 0)];
    l.lend(tables(4, head(1, 100, 0, END - 1, 1), &rows[..1], &[(1, 0, 0)]));
    l.submit(0, 9).kept(END, 1, 0, &rows, &[(2, 0, 0)]);
    l.submit(0, 9).refused(9);
    l.tick().served(0, END - 1, 0, &rows[1..], &[(2, 1, 0)]);
}

fn count_bound(l: &mut Library) {
    let (most, full) = (MOST_COUNTED, (MOST_COUNTED, MOST_COUNTED, 0));
    l.lend(tables(4, head(2, 100, 0, 7, 0), &[], &[full, (most - 1, 0, most - 1)]));
    l.submit(0, 9).refused(8);
    l.submit(1, 9).kept(8, 0, 0, &[(9, 8, 1)], &[full, (most, 0, most - 1)]);
    l.submit(1, 9).refused(8);
    l.report(1).reported([1, 268_435_455, 0, 268_435_454, 1]);
    l.tick().served(0, 8, 1, &[], &[full, (most, 1, most - 1)]);
    // the last that can be submitted is dropped: 0 of many against 3 of 4
    let rows = [(1, 9, 0)];
    l.lend(tables(2, head(2, 100, 0, 9, 1), &rows, &[(4, 0, 3), (most - 1, most - 1, 0)]));
    l.submit(1, 1).dropped(10, 10, 1, 0, &rows, &[(4, 0, 3), (most, most - 1, 1)]);
}

fn period_starts(l: &mut Library) {
    // clients 0 and 1 have requests waiting, client 2 has none
    let rows = [(101, 3, 1), (102, 4, 0), (105, 6, 1), (105, 7, 1)];
    l.lend(tables(6, head(3, 100, 98, 7, 4), &rows, &[(9, 5, 3), (8, 4, 1), (7, 3, 4)]));
    l.tick().served(98, 3, 1, &rows[1..], &[(9, 5, 3), (8, 5, 1), (7, 3, 4)]);
    l.tick().served(99, 4, 0, &rows[2..], &[FRESH, (2, 0, 0), FRESH]);
    l.tick().served(100, 6, 1, &rows[3..], &[FRESH, (2, 1, 0), FRESH]);
    let rows = [(102, 8, 2), (105, 7, 1)];
    l.submit(2, 102).kept(8, 0, 1, &rows, &[FRESH, (2, 1, 0), (1, 0, 0)]);
    // with none waiting: before a multiple of the period, to it and on from it; then the longest period
    let counts = [(7, 3, 4)];
    for (clock, after) in [(148, counts), (149, [FRESH]), (150, counts)] {
        l.lend(tables(2, head(1, 50, clock, 7, 0), &[], &counts));
        l.tick().idle(clock, &after);
    }
    l.lend(tables(2, head(1, MOST_PERIOD, MOST_PERIOD - 2, 7, 0), &[], &counts));
    l.tick().idle(MOST_PERIOD - 2, &counts);
    l.tick().idle(MOST_PERIOD - 1, &[FRESH]);
}

fn period_of_one(l: &mut Library) {
    let rows = [(4, 1, 0), (4, 2, 1), (4, 3, 0), (9, 4, 1)];
    l.lend(tables(5, head(2, 1, 0, 4, 4), &rows, &[(5, 2, 1), (9, 4, 3)]));
    l.tick().served(0, 1, 0, &rows[1..], &[(1, 0, 0), (2, 0, 0)]);
    l.tick().served(1, 2, 1, &rows[2..], &[(1, 0, 0), (1, 0, 0)]);
    l.tick().served(2, 3, 0, &rows[3..], &[FRESH, (1, 0, 0)]);
    l.tick().served(3, 4, 1, &[], &[FRESH; 2]);
    l.tick().idle(4, &[FRESH; 2]);
}

fn places(l: &mut Library) {
    let rows = [(10, 4, 1), (20, 1, 0), (20, 3, 1), (30, 2, 0)];
    let earlier = [(5, 0, 4), (9, 0, 4), (10, 1, 3), (19, 1, 3)];
    let later = [(20, 3, 1), (21, 3, 1), (29, 3, 1), (30, 4, 0), (31, 4, 0)];
    for (deadline, place, shift) in earlier.into_iter().chain(later) {
        l.lend(tables(6, head(2, 100, 2, 4, 4), &rows, &[(2, 0, 0), (2, 0, 0)]));
        let mut after = rows.to_vec();
        after.insert(place, (deadline, 5, 0));
        l.submit(0, deadline)
            .kept(5, place as u64, shift, &after, &[(3, 0, 0), (2, 0, 0)]);
    }
}

// Makes one of the rows client 0's, which then has the smallest ratio; the others are client 1's. Client 1 submits: the new
// request comes to its place, and client 0's goes. The shift counts client 0's too, where it stood behind.
fn one_goes(l: &mut Library, rows: &[Row], lost: usize, place: usize, deadline: u64) {
    let (n, mut rows) = (rows.len(), rows.to_vec());
    let (count, submitted) = (n as u64, n as u32);
    rows[lost].2 = 0;
    let head = head(2, 10_000, 0, count, count);
    l.lend(tables(n + 1, head, &rows, &[(4, 3, 0), (submitted, 0, 1)]));
    let victim = rows[lost].1;
    rows.insert(place, (deadline, count + 1, 1));
    rows.retain(|row| row.1 != victim);
    let shift = count - place as u64;
    l.submit(1, deadline)
        .dropped(count + 1, victim, 0, shift, &rows, &[(4, 3, 1), (submitted + 1, 0, 1)]);
}

fn victim_before_the_new(l: &mut Library) {
    // three at deadline 3, which is full, and a later one
    for lost in 0..3 {
        one_goes(l, &[(3, 1, 1), (3, 2, 1), (3, 3, 1), (9, 4, 1)], lost, 3, 3);
    }
}

fn victim_behind_the_new(l: &mut Library) {
    // five up to deadline 5, which is full, and a later one
    let rows = [(3, 1, 1), (5, 2, 1), (5, 3, 1), (5, 4, 1), (5, 6, 1), (9, 5, 1)];
    for lost in 0..5 {
        one_goes(l, &rows, lost, 0, 2);
    }
    for lost in 1..5 {
        one_goes(l, &rows, lost, 1, 4);
    }
}

fn victims_in_a_large_table(l: &mut Library) {
    let rows: Vec<Row> = (1..=2_047).map(|m| (2_047, m, 1)).collect();
    for lost in [0, 1, 1_023, 2_045, 2_046] {
        one_goes(l, &rows, lost, 0, 7);
        one_goes(l, &rows, lost, 2_047, 2_047);
    }
}

fn victim_is_the_new(l: &mut Library) {
    // overfull at 4, the new request at the front, between and at the end of the candidates; then overfull at 1
    for (deadline, first, shift) in [(1, 2, 5), (2, 2, 4), (4, 2, 1), (1, 1, 4)] {
        let rows = [(first, 1, 0), (4, 2, 0), (4, 3, 0), (4, 4, 0), (8, 5, 0)];
        l.lend(tables(6, head(2, 100, 0, 5, 5), &rows, &[(9, 1, 3), (2, 2, 0)]));
        l.submit(1, deadline).dropped(6, 6, 1, shift, &rows, &[(9, 1, 3), (3, 2, 1)]);
    }
    // as many behind it as can be
    let rows: Vec<Row> = (1..=2_047).map(|m| (2_047, m, 0)).collect();
    l.lend(tables(2_048, head(2, 100, 0, 2_047, 2_047), &rows, &[(2_048, 0, 1), FRESH]));
    l.submit(1, 7)
        .dropped(2_048, 2_048, 1, 2_047, &rows, &[(2_048, 0, 1), (1, 0, 1)]);
}

fn equal_ratios(l: &mut Library) {
    // one client: the last candidate loses, and the record at 9 is none
    let rows = [(2, 1, 0), (3, 2, 0), (3, 3, 0), (9, 4, 0)];
    l.lend(tables(8, head(1, 100, 0, 4, 4), &rows, &[(6, 1, 1)]));
    let after = [(1, 5, 0), rows[0], rows[1], rows[3]];
    l.submit(0, 1).dropped(5, 3, 0, 4, &after, &[(7, 1, 2)]);
    // 1 of 4, 2 of 8 and 3 of 12: the last of the three; the fourth client has 1 of 3
    let rows = [(4, 1, 0), (4, 2, 1), (4, 3, 2), (4, 4, 3)];
    let counts = [(4, 2, 1), (8, 5, 2), (12, 8, 3), (2, 0, 1)];
    l.lend(tables(5, head(4, 100, 0, 4, 4), &rows, &counts));
    let after = [(3, 5, 3), rows[0], rows[1], rows[3]];
    let counts = [(4, 2, 1), (8, 5, 2), (12, 8, 4), (3, 0, 1)];
    l.submit(3, 3).dropped(5, 3, 2, 4, &after, &counts);
}

fn later_ones_are_no_candidates(l: &mut Library) {
    // one segment up to 5, where 2 and 5 become overfull; client 2, with nothing dropped, has all behind 2
    let rows = [(2, 1, 0), (2, 2, 1), (5, 3, 2), (5, 4, 2), (5, 5, 2)];
    l.lend(tables(8, head(3, 100, 0, 5, 5), &rows, &[(2, 0, 1), (4, 0, 3), (3, 0, 0)]));
    l.chart(5).charted(&[0, 1, 2, 3, 4]);
    let after = [(1, 6, 1), rows[1], rows[2], rows[3], rows[4]];
    l.submit(1, 1).dropped(6, 1, 0, 5, &after, &[(2, 0, 2), (5, 0, 3), (3, 0, 0)]);
}

fn opens(l: &mut Library) {
    let anything = vec![(u64::MAX, 5, 300); MOST_RECORDS];
    let most = MOST_CLIENTS as u64;
    for (clients, records) in [(1, 1), (2, 3), (most, MOST_RECORDS)] {
        for period in [1, 100, MOST_PERIOD] {
            let counts = vec![(u32::MAX, 1, 2); clients as usize];
            l.lend(tables(records, head(u64::MAX, 0, END + 1, 7, u64::MAX), &anything, &counts));
            l.open(clients, period).opened(clients, period);
        }
    }
    l.lend(good());
    for clients in [0, most + 1, 1 << 32, (1 << 32) + 2, u64::MAX] {
        l.open(clients, 100).refused(2);
    }
    for period in [0, MOST_PERIOD + 1, MOST_PERIOD + 2, u64::MAX] {
        l.open(2, period).refused(3);
    }
}

// Sound tables with a tie, deadline 12 full, and two free records.
const GOOD: [Row; 4] = [(12, 4, 0), (12, 7, 1), (20, 2, 0), (25, 5, 1)];

fn good() -> Tables {
    tables(6, head(2, 100, 10, 9, 4), &GOOD, &[(5, 2, 1), (5, 3, 0)])
}

fn good_tables_are_sound(l: &mut Library) {
    l.lend(good());
    l.report(1).reported([1, 5, 3, 0, 2]);
    l.chart(4).charted(&[10, 11, 19, 24]);
    let rows = [GOOD[0], GOOD[1], (19, 10, 0), GOOD[2], GOOD[3]];
    l.submit(0, 19).kept(10, 2, 2, &rows, &[(6, 2, 1), (5, 3, 0)]);
    l.tick().served(10, 4, 0, &rows[1..], &[(6, 3, 1), (5, 3, 0)]);
}

fn no_such_client(l: &mut Library) {
    l.lend(good());
    for client in [2, 255, 256, 1 << 32, u64::MAX] {
        l.submit(client, 20).refused(6);
        l.report(client).refused(6);
    }
}

// With arguments that sound tables accept.
fn all_but_open_refuse(l: &mut Library, number: u64) {
    let deadline = l.tables.head.clock.wrapping_add(9);
    l.submit(0, deadline).refused(number);
    l.tick().refused(number);
    l.report(0).refused(number);
    l.chart(3_000).refused(number);
}

// An edit of good tables.
type Edit = (&'static str, fn(&mut Tables));

// Each breaks one clause of "sound", as far as one can be broken without another.
const DAMAGES: [Edit; 42] = [
    ("no clients", |t| *t = tables(6, head(0, 100, 10, 9, 0), &[], &[])),
    ("257 clients", |t| *t = opened(6, 257)),
    ("period 0", |t| t.head.setup.period = 0),
    ("period above its bound", |t| t.head.setup.period = MOST_PERIOD + 1),
    ("clock past its end", |t| {
        *t = tables(6, head(1, 100, END + 1, 9, 1), &[(END + 3, 5, 0)], &[(1, 0, 0)])
    }),
    ("clock past its end, none waiting", |t| {
        *t = tables(6, head(1, 100, END + 1, 9, 0), &[], &[FRESH])
    }),
    ("clock at the last of 64 bits", |t| {
        *t = tables(6, head(1, 100, u64::MAX, 9, 0), &[], &[FRESH])
    }),
    ("last number past its end", |t| t.head.last = END + 1),
    ("last number at the last of 64 bits", |t| t.head.last = u64::MAX),
    ("later deadline first", |t| t.waiting.swap(2, 3)),
    ("larger number first", |t| t.waiting.swap(0, 1)),
    ("two equal in both", |t| t.waiting[1].number = 4),
    ("deadline at the clock", |t| t.waiting[0].deadline = 10),
    ("deadline before the clock", |t| t.waiting[0].deadline = 9),
    ("deadline 0", |t| t.waiting[0].deadline = 0),
    ("deadline 65,536 ahead", |t| t.waiting[3].deadline = 65_546),
    ("deadline at the last of 64 bits", |t| t.waiting[3].deadline = u64::MAX),
    ("number 0 at first", |t| t.waiting[0].number = 0),
    ("number 0 at last", |t| t.waiting[3].number = 0),
    ("number above the last given", |t| t.waiting[2].number = 10),
    ("number at the last of 64 bits", |t| t.waiting[3].number = u64::MAX),
    ("no such client", |t| {
        (t.waiting[2].client, t.clients_mut()[0].submitted) = (2, 4)
    }),
    ("client 0 but for 8 bits", |t| t.waiting[2].client = 256),
    ("client 0 but for 32 bits", |t| t.waiting[2].client = 1 << 32),
    ("overfull", |t| t.waiting[2] = request(12, 8, 0)),
    ("overfull at last", |t| {
        (t.waiting[2].deadline, t.waiting[3].deadline) = (13, 13)
    }),
    ("deadline behind the waiting", |t| t.waiting[4].deadline = 30),
    ("number behind the waiting", |t| t.waiting[4].number = 1),
    ("client behind the waiting", |t| t.waiting[4].client = 1),
    ("deadline in the last record", |t| t.waiting[5].deadline = 1 << 63),
    ("number in the last record", |t| t.waiting[5].number = 1 << 63),
    ("client in the last record", |t| t.waiting[5].client = 1 << 63),
    ("submitted above the sum", |t| t.clients_mut()[0].submitted += 1),
    ("submitted below the sum", |t| t.clients_mut()[1].submitted -= 1),
    ("served above", |t| t.clients_mut()[0].served += 1),
    ("served below", |t| t.clients_mut()[1].served -= 1),
    ("dropped above", |t| t.clients_mut()[1].dropped += 1),
    ("dropped below", |t| t.clients_mut()[0].dropped -= 1),
    ("the sum right, above its bound", |t| {
        let client = &mut t.clients_mut()[1];
        (client.submitted, client.served) = (MOST_COUNTED + 1, MOST_COUNTED - 1);
    }),
    ("the sum right but for 32 bits", |t| {
        let client = &mut t.clients_mut()[1];
        (client.served, client.dropped) = (3 + (1 << 31), 1 << 31);
    }),
    ("one waiting record not counted", |t| t.head.waiting = 3),
    ("a free record counted", |t| t.head.waiting = 5),
];

fn damaged(l: &mut Library) {
    for (edit, damage) in DAMAGES.into_iter().chain(hours::DAMAGES) {
        l.case = format!("damaged tables, {edit}");
        l.lend(good());
        damage(&mut l.tables);
        all_but_open_refuse(l, 5);
    }
}

// Tables of the largest size, with one record or one count wrong, at each place in turn.
fn damaged_anywhere(l: &mut Library) {
    let full = tables(MOST_RECORDS, head(256, 100, 0, 2_048, 2_048), &in_turn(), &[(8, 0, 0); 256]);
    let mut refused = |damage: &dyn Fn(&mut Tables)| {
        l.lend(full.clone());
        damage(&mut l.tables);
        l.tick().refused(5);
    };
    for place in 0..MOST_RECORDS {
        refused(&|t| t.waiting[place].number = 0);
        refused(&|t| {
            *t = opened(MOST_RECORDS, 1);
            t.waiting[place].client = 1;
        });
    }
    for client in 0..256 {
        refused(&|t| t.clients_mut()[client].served = 1);
    }
    l.lend(full);
    l.report(255).reported([255, 8, 0, 0, 8]);
}

// Each leaves another length, or a waiting count above the length.
const LENGTHS: [Edit; 11] = [
    ("no records", |t| *t = tables(0, head(2, 100, 10, 9, 0), &[], &[FRESH; 2])),
    ("2,049 records", |t| t.waiting.resize(2_049, Request::default())),
    ("a client short", |t| *t = tables(6, head(2, 100, 10, 9, 0), &[], &[FRESH])),
    ("a client more", |t| *t = tables(6, head(2, 100, 10, 9, 0), &[], &[FRESH; 3])),
    ("no numbers of clients", |t| t.client_numbers.clear()),
    ("a number short", |t| t.client_numbers.truncate(5)),
    ("two numbers short", |t| t.client_numbers.truncate(4)),
    ("a number more", |t| t.client_numbers.push(0)),
    ("two numbers more", |t| t.client_numbers.extend([0, 9])),
    ("waiting count above the table", |t| t.head.waiting = 7),
    ("waiting count at the last of 64 bits", |t| t.head.waiting = u64::MAX),
];

// Open asks all of them but the waiting counts.
const LENGTHS_IN_OPEN: usize = 9;

fn lengths(l: &mut Library) {
    for (i, (edit, damage)) in LENGTHS.into_iter().enumerate() {
        l.case = format!("lengths, {edit}");
        l.lend(good());
        damage(&mut l.tables);
        all_but_open_refuse(l, 4);
        if i < LENGTHS_IN_OPEN {
            l.open(2, 100).refused(4);
        } else {
            l.open(2, 100).opened(2, 100);
        }
    }
}

fn before_an_open(l: &mut Library) {
    l.lend(tables(0, Head::default(), &[], &[]));
    all_but_open_refuse(l, 4);
    l.open(1, 1).refused(4);
}

fn first_match_of_open_and_submit(l: &mut Library) {
    l.lend(tables(0, head(2, 100, 0, 0, 0), &[], &[FRESH; 2]));
    l.open(0, 0).refused(2);
    l.open(257, 0).refused(2);
    l.open(3, 0).refused(3);
    l.open(3, 100).refused(4);
    // a waiting count above the table, records out of order, a client at its bound, the last number given, a full table
    let (rows, bound) = ([(12, END, 1), (12, 5, 0)], (MOST_COUNTED, MOST_COUNTED - 1, 0));
    l.lend(tables(2, head(2, 100, 10, END, 3), &rows, &[bound, (1, 0, 0)]));
    l.submit(2, 10).refused(4);
    l.tables.head.waiting = 2;
    l.submit(2, 10).refused(5);
    l.tables.waiting.swap(0, 1);
    l.submit(2, 10).refused(6);
    l.submit(0, 10).refused(7);
    l.submit(0, 12).refused(8);
    l.submit(1, 12).refused(9);
    (l.tables.head.last, l.tables.waiting[1].number) = (END - 1, END - 1);
    l.submit(0, 12).refused(8);
    l.submit(1, 10).refused(7);
    // though deadline 12 is full
    l.submit(1, 12).refused(10);
}

// At the end of the clock, a waiting count above the table and a period of 0 are put right, one after the other.
fn first_match_of_the_others(l: &mut Library) {
    l.lend(tables(1, Head::default(), &[(END + 1, 1, 0)], &[(1, 0, 0)]));
    let heads = [head(1, 0, END, 1, 2), head(1, 0, END, 1, 1), head(1, 1, END, 1, 1)];
    for (head, [of_report, of_tick, of_chart]) in heads.into_iter().zip([[4; 3], [5; 3], [6, 11, 12]]) {
        l.tables.head = head;
        l.report(1).refused(of_report);
        l.tick().refused(of_tick);
        l.chart(0).refused(of_chart);
    }
}

// Client tables whose numbers are no whole records, under heads of no clients, of some, and of so many that three times as many are
// the numbers but for a carry.
fn odd_numbers(l: &mut Library) {
    for numbers in [1, 2, 4, 5] {
        let [carried, carried_32] = THIRDS.map(|third| third.wrapping_mul(numbers));
        for clients in [0, 1, 2, 256, u64::MAX, carried, carried_32] {
            l.lend(Tables {
                client_numbers: vec![0; numbers as usize],
                ..opened(6, 0)
            });
            l.tables.head.setup.clients = clients;
            all_but_open_refuse(l, 4);
        }
        for clients in [1, 2, 3] {
            l.open(clients, 100).refused(4);
        }
        l.open(0, 100).refused(2);
    }
    // with no clients and no numbers the lengths are right
    l.lend(opened(6, 0));
    all_but_open_refuse(l, 5);
}

// Every call, in a thread with a stack of 32 KiB.
fn little_stack(l: &mut Library) {
    thread::scope(|scope| {
        let small = thread::Builder::new().stack_size(32 << 10);
        let calls = || {
            opens(l);
            full_of_many_clients(l);
            victims_in_a_large_table(l);
            charts(l);
            hours::full_in_every_second_slot(l);
            hours::charts_with_hours(l);
        };
        small.spawn_scoped(scope, calls).expect("a thread");
    });
}

type Case = (&'static str, fn(&mut Library));

const CASES: [Case; 45] = [
    ("document 01's session", session),
    ("idle ticks", idle_ticks),
    ("deadlines at their bounds", deadlines),
    ("deadlines 2, 2, 2", third_at_two),
    ("ratios", ratios),
    ("ratios that a double cannot tell apart", close_ratios),
    ("charts", charts),
    ("a table of one record", one_record),
    ("2,048 records, each to the front", full_from_the_front),
    ("2,048 records of 256 clients", full_of_many_clients),
    ("the clock at its end", clock_at_its_end),
    ("the last request number", last_number),
    ("the count bound", count_bound),
    ("period starts", period_starts),
    ("a period of one slot", period_of_one),
    ("places", places),
    ("a victim before the new request", victim_before_the_new),
    ("a victim behind the new request", victim_behind_the_new),
    ("victims in a large table", victims_in_a_large_table),
    ("the new request as victim", victim_is_the_new),
    ("equal ratios", equal_ratios),
    ("later requests are no candidates", later_ones_are_no_candidates),
    ("opens", opens),
    ("good tables are sound", good_tables_are_sound),
    ("no such client", no_such_client),
    ("damaged tables", damaged),
    ("damaged tables of the largest size", damaged_anywhere),
    ("lengths", lengths),
    ("before an open", before_an_open),
    ("first match wins: open and submit", first_match_of_open_and_submit),
    ("first match wins: report, tick and chart", first_match_of_the_others),
    ("numbers of clients that are not records", odd_numbers),
    ("a small session with hours", hours::small_session),
    ("opens with hours", hours::opens_with_hours),
    ("each hour by itself", hours::each_hour),
    ("edges of hours", hours::edges_of_hours),
    ("closed ticks", hours::closed_ticks),
    ("no open slot", hours::no_open_slot),
    ("65,535, all slots counted", hours::reach_in_all_slots),
    ("first match wins: hours", hours::first_match_with_hours),
    ("charts with hours", hours::charts_with_hours),
    ("candidates by open slots", hours::candidates_by_open_slots),
    ("2,048 records in every second slot", hours::full_in_every_second_slot),
    ("deadlines in closed hours", hours::deadlines_in_closed_hours),
    ("a stack of 32 KiB", little_stack),
];

fn main() {
    let none = tables(0, Head::default(), &[], &[]);
    let mut l = Library {
        case: String::new(),
        calls: 0,
        call: String::new(),
        answer: vec![],
        tables: none.clone(),
        output: vec![],
        before: none,
        output_before: vec![],
    };
    for (case, run) in CASES {
        l.case = case.into();
        run(&mut l);
    }
    // each edit is a case of its own
    let cases = CASES.len() - 2 + DAMAGES.len() + hours::DAMAGES.len() + LENGTHS.len();
    println!("{cases} cases, {} calls: all as the documents say", l.calls);
}
