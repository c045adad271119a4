//! Document 02, "Inspection hours", case by case.
use super::*;
use tests::random::hours::{close, open as mark};

// "168 open-or-closed marks"
const HOURS: u64 = 168;

const EVERY_SECOND: Hours = Hours { marks: [0xAA; 21] };
const ALL_CLOSED: Hours = Hours { marks: [0; 21] };

// Marks of a week in which these hours are open.
fn only(open: impl IntoIterator<Item = u64>) -> Hours {
    let mut hours = ALL_CLOSED;
    open.into_iter().for_each(|hour| mark(&mut hours, hour));
    hours
}

// The same tables with other hours.
fn within(slots_per_hour: u64, hours: Hours, tables: Tables) -> Tables {
    let mut t = tables;
    (t.head.setup.slots_per_hour, t.hours) = (slots_per_hour, hours);
    t
}

// Two slots an hour, hours 0 and 2 open: slots 0, 1, 4 and 5 of the first 336.
pub fn small_session(l: &mut Library) {
    let (rows, setup) = ([(3, 1, 0), (5, 2, 0), (5, 4, 0), (6, 3, 0)], setup_with(1, 100, 2));
    l.lend(within(
        9,
        EVERY_SECOND,
        tables(8, head(9, 9, 9, 9, 9), &[(9, 9, 9); 8], &[(9, 9, 9)]),
    ));
    l.open_with(setup, only([0, 2])).opened_with(setup, only([0, 2]));
    l.submit(0, 3).kept(1, 0, 0, &rows[..1], &[(1, 0, 0)]);
    l.submit(0, 5).kept(2, 1, 0, &rows[..2], &[(2, 0, 0)]);
    l.chart(8).charted(&[1, 4]);
    l.submit(0, 6).kept(3, 2, 0, &[rows[0], rows[1], rows[3]], &[(3, 0, 0)]);
    l.chart(8).charted(&[1, 4, 5]);
    l.submit(0, 5).kept(4, 2, 1, &rows, &[(4, 0, 0)]);
    l.chart(8).charted(&[0, 1, 4, 5]);
    l.tick().served(0, 1, 0, &rows[1..], &[(4, 1, 0)]);
    l.tick().served(1, 2, 0, &rows[2..], &[(4, 2, 0)]);
    l.tick().closed(2, &rows[2..], &[(4, 2, 0)]);
    l.submit(0, 4).refused(15);
    // no slot from 6 to 9 is open: three reads, two open slots
    l.submit(0, 9).dropped(5, 5, 0, 0, &rows[2..], &[(5, 2, 1)]);
    l.chart(8).charted(&[4, 5]);
    l.tick().closed(3, &rows[2..], &[(5, 2, 1)]);
    l.tick().served(4, 4, 0, &rows[3..], &[(5, 3, 1)]);
    l.tick().served(5, 3, 0, &[], &[(5, 4, 1)]);
    l.tick().closed(6, &[], &[(5, 4, 1)]);
    l.report(0).reported([0, 5, 4, 1, 0]);
}

pub fn opens_with_hours(l: &mut Library) {
    for slots_per_hour in [1, 2, 7, 360, MOST_PER_HOUR - 1, MOST_PER_HOUR] {
        let setup = setup_with(2, 100, slots_per_hour);
        for hours in [ALL_OPEN, EVERY_SECOND, only([0]), only([167]), only(1..167)] {
            l.lend(within(u64::MAX, ALL_CLOSED, good()));
            l.open_with(setup, hours).opened_with(setup, hours);
        }
    }
    for hour in 0..HOURS {
        l.lend(good());
        l.open_with(setup(2, 100), only([hour]))
            .opened_with(setup(2, 100), only([hour]));
    }
    l.lend(within(7, EVERY_SECOND, good()));
    for slots_per_hour in [0, MOST_PER_HOUR + 1, MOST_PER_HOUR + 2, 1 << 32, (1 << 32) + 1, u64::MAX] {
        for hours in [ALL_OPEN, EVERY_SECOND, ALL_CLOSED] {
            l.open_with(setup_with(2, 100, slots_per_hour), hours).refused(13);
        }
    }
    for slots_per_hour in [1, 7, MOST_PER_HOUR] {
        l.open_with(setup_with(2, 100, slots_per_hour), ALL_CLOSED).refused(14);
    }
}

// A tick with this clock, with none waiting.
fn tick_alone(l: &mut Library, clock: u64, is_open: bool) {
    (l.tables.head.clock, l.tables.head.setup.period) = (clock, MOST_PERIOD);
    let call = l.tick();
    if is_open {
        call.idle(clock, &[FRESH]);
    } else {
        call.closed(clock, &[], &[FRESH]);
    }
}

// Each hour open by itself, in the first week, the second and the last whole one: the ticks of all hours, of one slot each.
pub fn each_hour(l: &mut Library) {
    for open in 0..HOURS {
        l.lend(within(1, only([open]), opened(1, 1)));
        for week in [0, 1, END / HOURS - 1] {
            (0..HOURS).for_each(|hour| tick_alone(l, HOURS * week + hour, hour == open));
        }
    }
}

// The first slot and the last of each hour, alone open and alone closed, and those beside them.
pub fn edges_of_hours(l: &mut Library) {
    for (slots_per_hour, hour) in [2, 7, 3_600, MOST_PER_HOUR]
        .into_iter()
        .flat_map(|n| (0..HOURS).map(move |hour| (n, hour)))
    {
        let mut others = ALL_OPEN;
        close(&mut others, hour);
        for week in [0, 1, END / (HOURS * slots_per_hour) - 1] {
            let first = (HOURS * week + hour) * slots_per_hour;
            let last = first + slots_per_hour - 1;
            for (hours, is_open) in [(only([hour]), true), (others, false)] {
                l.lend(within(slots_per_hour, hours, opened(1, 1)));
                tick_alone(l, first, is_open);
                tick_alone(l, last, is_open);
                tick_alone(l, last + 1, !is_open);
                if first > 0 {
                    tick_alone(l, first - 1, !is_open);
                }
            }
        }
    }
}

// Reads wait, a period starts, the clock ends: a closed slot leaves every record and count but for a period's start.
pub fn closed_ticks(l: &mut Library) {
    let (rows, counts) = ([(104, 3, 1), (105, 6, 1), (105, 7, 0)], [(9, 5, 3), (8, 4, 2), (7, 3, 4)]);
    let hours = only([100, 102, 103, 104]);
    l.lend(within(1, hours, tables(6, head(3, 100, 98, 7, 3), &rows, &counts)));
    l.tick().closed(98, &rows, &counts);
    // at 100 a period starts
    l.tick().closed(99, &rows, &[(1, 0, 0), (2, 0, 0), FRESH]);
    l.tick().served(100, 3, 1, &rows[1..], &[(1, 0, 0), (2, 1, 0), FRESH]);
    l.tick().closed(101, &rows[1..], &[(1, 0, 0), (2, 1, 0), FRESH]);
    l.tick().served(102, 6, 1, &rows[2..], &[(1, 0, 0), (2, 2, 0), FRESH]);
    l.lend(within(1, only([0]), tables(2, head(1, 1, 5, 7, 0), &[], &[(7, 3, 4)])));
    l.tick().closed(5, &[], &[FRESH]);
    l.tick().closed(6, &[], &[FRESH]);
    // the clock's last tick, and no more, whether or not the slot is open
    let end = END % HOURS;
    for (hours, is_open) in [(only([end]), false), (only([end - 1]), true)] {
        l.lend(within(1, hours, opened(1, 1)));
        tick_alone(l, END - 1, is_open);
        l.tick().refused(11);
    }
}

// Ten slots an hour, of which 50 to 59 are open, and 1,730 to 1,739 a week later.
pub fn no_open_slot(l: &mut Library) {
    let lend = |l: &mut Library, clock: u64| l.lend(within(10, only([5]), tables(4, head(1, 100, clock, 0, 0), &[], &[FRESH])));
    for (clock, first) in [(0, 50), (49, 50), (60, 1_730), (1_729, 1_730)] {
        lend(l, clock);
        for deadline in [clock + 1, (clock + first).div_ceil(2), first] {
            l.submit(0, deadline).refused(15);
        }
        l.submit(0, clock).refused(7);
        l.submit(0, clock + 65_536).refused(7);
        l.submit(0, first + 1).kept(1, 0, 0, &[(first + 1, 1, 0)], &[(1, 0, 0)]);
        l.submit(0, first + 1).dropped(2, 2, 0, 0, &[(first + 1, 1, 0)], &[(2, 0, 1)]);
        l.chart(1).charted(&[first]);
    }
    lend(l, 59);
    l.submit(0, 60).kept(1, 0, 0, &[(60, 1, 0)], &[(1, 0, 0)]);
}

// All slots are counted where a deadline has to be near: no open one may be among them, or one, or half of them.
pub fn reach_in_all_slots(l: &mut Library) {
    let lend = |l: &mut Library, clock: u64| {
        l.lend(within(
            MOST_PER_HOUR,
            only([1]),
            tables(4, head(1, 100, clock, 0, 0), &[], &[FRESH]),
        ));
    };
    let last_without = MOST_PER_HOUR - MOST_AHEAD;
    for clock in [0, last_without] {
        lend(l, clock);
        l.submit(0, clock + 65_535).refused(15);
        l.submit(0, clock + 65_536).refused(7);
        l.submit(0, u64::MAX).refused(7);
    }
    lend(l, last_without + 1);
    let rows = [(MOST_PER_HOUR + 1, 1, 0)];
    l.submit(0, MOST_PER_HOUR).refused(15);
    l.submit(0, MOST_PER_HOUR + 2).refused(7);
    l.submit(0, MOST_PER_HOUR + 1).kept(1, 0, 0, &rows, &[(1, 0, 0)]);
    l.submit(0, MOST_PER_HOUR + 1).dropped(2, 2, 0, 0, &rows, &[(2, 0, 1)]);
    l.chart(1).charted(&[MOST_PER_HOUR]);
    l.lend(within(1, EVERY_SECOND, opened(4, 1)));
    l.submit(0, 65_536).refused(7);
    l.submit(0, 65_535).kept(1, 0, 0, &[(65_535, 1, 0)], &[(1, 0, 0)]);
    l.chart(1).charted(&[65_534]);
    // hour 15 is the last slot's: it is closed
    l.lend(within(1, EVERY_SECOND, tables(4, head(1, 100, 1, 0, 0), &[], &[FRESH])));
    l.submit(0, 65_536).kept(1, 0, 0, &[(65_536, 1, 0)], &[(1, 0, 0)]);
    l.chart(1).charted(&[65_534]);
}

// Refusals 4 to 10 with 15 between 7 and 8: of the slots from the clock on the first open one is 20.
pub fn first_match_with_hours(l: &mut Library) {
    let bound = (MOST_COUNTED, MOST_COUNTED, 0);
    l.lend(within(
        1,
        only([20]),
        tables(1, head(2, 100, 10, END, 2), &[(25, END, 1)], &[bound, (1, 0, 0)]),
    ));
    l.submit(2, 10).refused(4);
    l.tables.head.waiting = 1;
    l.tables.head.setup.slots_per_hour = 0;
    l.submit(2, 10).refused(5);
    l.tables.head.setup.slots_per_hour = 1;
    l.submit(2, 10).refused(6);
    for deadline in [0, 10, 65_546, u64::MAX] {
        l.submit(0, deadline).refused(7);
    }
    for last in [END, END - 1] {
        (l.tables.head.last, l.tables.waiting[0].number) = (last, last);
        for client in [0, 1] {
            l.submit(client, 11).refused(15);
            l.submit(client, 20).refused(15);
        }
        l.submit(0, 21).refused(8);
        l.submit(1, 21).refused(if last == END { 9 } else { 10 });
    }
    // an open that meets all of its refusals, put right one by one
    let opens = [(0, 0, 0, 2), (3, 0, 0, 3), (3, 100, 0, 13), (3, 100, 1, 14)];
    for (clients, period, slots_per_hour, number) in opens {
        l.open_with(setup_with(clients, period, slots_per_hour), ALL_CLOSED)
            .refused(number);
    }
    l.open_with(setup_with(3, 100, 1), EVERY_SECOND).refused(4);
}

// "the chart uses the latest open slots": before the deadline, and before the slot of the record behind.
pub fn charts_with_hours(l: &mut Library) {
    // two slots an hour: 0, 1, 4 to 7, 336, 337 and so on are open
    let hours = only([0, 2, 3]);
    let rows = [(3, 1, 0), (4, 2, 0), (6, 3, 0), (8, 4, 0), (300, 5, 0), (337, 6, 0)];
    l.lend(within(2, hours, tables(8, head(1, 100, 0, 6, 6), &rows, &[(6, 0, 0)])));
    l.chart(6).charted(&[0, 1, 5, 6, 7, 336]);
    // the end of one week and the beginning of the next
    let rows = [(169, 1, 0), (336, 2, 0), (336, 3, 0)];
    l.lend(within(
        1,
        only([0, 167]),
        tables(8, head(1, 100, 100, 3, 3), &rows, &[(3, 0, 0)]),
    ));
    l.chart(3).charted(&[167, 168, 335]);
    // only past the clock's end
    let (hour, rows) = ((END + 9) % HOURS, [(END + 10, 1, 0), (END + 9 + HOURS + 50, 2, 0)]);
    l.lend(within(
        1,
        only([hour]),
        tables(2, head(1, 100, END, 2, 2), &rows, &[(2, 0, 0)]),
    ));
    l.chart(2).charted(&[END + 9, END + 9 + HOURS]);
}

// Every second slot is open. Client 2 has nothing dropped, but its reads lie behind the smallest overfull deadline.
pub fn candidates_by_open_slots(l: &mut Library) {
    let rows = [(1, 1, 0), (5, 2, 2), (5, 3, 2)];
    let counts = [(2, 0, 1), (3, 0, 3), (2, 0, 0)];
    l.lend(within(1, EVERY_SECOND, tables(6, head(3, 100, 0, 3, 3), &rows, &counts)));
    let after = [(2, 4, 1), rows[1], rows[2]];
    l.submit(1, 2).dropped(4, 1, 0, 2, &after, &[(2, 0, 2), (4, 0, 3), (2, 0, 0)]);
    // up to 6 no more slots are open than up to 5: the fourth read is one too many, and each of them is a candidate
    l.lend(within(1, EVERY_SECOND, tables(6, head(3, 100, 0, 3, 3), &rows, &counts)));
    l.submit(1, 6)
        .dropped(4, 3, 2, 0, &[rows[0], rows[1], (6, 4, 1)], &[(2, 0, 1), (4, 0, 3), (2, 0, 1)]);
}

// Every second slot is open, and every open one up to 4,096 is taken.
pub fn full_in_every_second_slot(l: &mut Library) {
    let rows: Vec<Row> = (0..2_048).map(|m| (2 * m + 2, m + 1, 0)).collect();
    l.lend(within(1, EVERY_SECOND, opened(MOST_RECORDS, 1)));
    for n in 1..=2_048 {
        let (deadline, number, _) = rows[n - 1];
        l.submit(0, deadline)
            .kept(number, number - 1, 0, &rows[..n], &[(n as u32, 0, 0)]);
    }
    l.submit(0, 1).refused(10);
    let starts: Vec<u64> = (0..2_048).map(|m| 2 * m).collect();
    l.chart(2_048).charted(&starts);
    l.tick().served(0, 1, 0, &rows[1..], &[(2_048, 1, 0)]);
    l.submit(0, 2).refused(15);
    l.submit(0, 4_096).dropped(2_049, 2_049, 0, 0, &rows[1..], &[(2_049, 1, 1)]);
    l.tick().closed(1, &rows[1..], &[(2_049, 1, 1)]);
    l.chart(2_047).charted(&starts[1..]);
}

// Good tables are sound with these hours too: a deadline may lie in a closed one.
pub fn deadlines_in_closed_hours(l: &mut Library) {
    l.lend(good());
    for hour in [9, 12, 19, 24, 25] {
        close(&mut l.tables.hours, hour);
    }
    l.report(1).reported([1, 5, 3, 0, 2]);
    l.chart(4).charted(&[10, 11, 18, 23]);
    // up to 13 there is no more room than up to 12
    l.submit(1, 13).dropped(10, 10, 1, 2, &GOOD, &[(5, 2, 1), (6, 3, 1)]);
    l.tick().served(10, 4, 0, &GOOD[1..], &[(5, 3, 1), (6, 3, 1)]);
    let rows = [GOOD[1], (14, 11, 1), GOOD[2], GOOD[3]];
    l.submit(1, 14).kept(11, 1, 2, &rows, &[(5, 3, 1), (7, 3, 1)]);
}

// Edits of good tables, with which they are not sound.
pub const DAMAGES: [Edit; 9] = [
    ("slots per hour 0", |t| t.head.setup.slots_per_hour = 0),
    ("slots per hour 0, none waiting", |t| {
        *t = within(0, ALL_OPEN, tables(6, head(1, 100, 10, 9, 0), &[], &[FRESH]))
    }),
    ("slots per hour above their bound", |t| {
        t.head.setup.slots_per_hour = MOST_PER_HOUR + 1
    }),
    ("slots per hour 1 but for 32 bits", |t| {
        t.head.setup.slots_per_hour = (1 << 32) + 1
    }),
    ("slots per hour at the last of 64 bits", |t| {
        t.head.setup.slots_per_hour = u64::MAX
    }),
    ("no hour open", |t| t.hours = ALL_CLOSED),
    ("no hour open, none waiting", |t| {
        *t = within(1, ALL_CLOSED, tables(6, head(1, 100, 10, 9, 0), &[], &[FRESH]))
    }),
    ("overfull by open slots", |t| close(&mut t.hours, 11)),
    ("overfull by open slots at last", |t| {
        (13..25).for_each(|hour| close(&mut t.hours, hour))
    }),
];
