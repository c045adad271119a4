//! Slots one by one, each with the number of the read that was served.
use super::super::super::collect::recent::Slot;
use super::super::super::collect::Ended;
use super::super::super::said;
use super::super::colours::{ink, of_row};
use super::super::scale::{Scale, CLOSED, DROP, LEFT, RIGHT, WIDTH};
use super::{periods, Rows};
use crate::session::follow::Read;
use crate::numbers::grouped;
use crate::drawing::page::{drawings, paragraph};
use crate::drawing::svg::Svg;
use std::collections::BTreeMap;

/// Slots are drawn one by one where the bands below each other have no more rows together.
const MOST_ROWS: usize = 60;
const SAID: &str = "\
A box is a slot in which a read was served, with the read's number. A cross is a read that was dropped, at the clock of the drop.";
/// An idle slot.
const IDLE: &str = "#c8c8c8";

fn draw_served(svg: &mut Svg, (x, y): (f64, f64), (width, height): (f64, f64), (slot, read): (u64, &Read), fill: &str) {
    svg.titled(&said::read(slot, read), |svg| {
        svg.rect((x + 0.5, y), (width - 1.0, height), fill);
        svg.label((x + width / 2.0, y + height / 2.0 + 4.0), "middle", (11.0, ink(fill)), &read.number.to_string());
    });
}

/// A cross at a clock, with the number of drops where there are several.
fn draw_dropped(svg: &mut Svg, (x, y): (f64, f64), title: &str, times: u64) {
    svg.titled(title, |svg| {
        let cross = format!("M{} {}l7 7m0 -7l-7 7", x - 3.5, y - 3.5);
        svg.add("path", &[("d", &cross), ("stroke", &DROP), ("stroke-width", &2), ("fill", &"none")], "");
        if times > 1 {
            svg.label((x + 6.0, y + 4.0), "start", (10.0, DROP), &times.to_string());
        }
    });
}

fn draw_slot(svg: &mut Svg, session: &Ended, rows: &Rows, scale: &Scale, (number, slot): (u64, &Slot)) {
    let x = scale.x(number);
    for read in &slot.served {
        let row = session.clients.place(read.client);
        let fill = of_row(&session.clients, row);
        draw_served(svg, (x, rows.top(row)), (scale.slot, rows.boxes), (number, read), fill);
    }
    let (left, size) = (x + 0.5, (scale.slot - 1.0, rows.boxes));
    if slot.is_closed {
        svg.titled(&format!("slot {number}: closed"), |svg| svg.hatch((left, rows.closed()), size, CLOSED));
    } else if slot.has_passed && slot.served.is_empty() {
        svg.titled(&format!("slot {number}: nothing waits"), |svg| svg.rect((left, rows.idle()), size, IDLE));
    }
}

/// How many reads of each row were dropped at a slot.
fn drops(session: &Ended, slot: &Slot) -> BTreeMap<usize, u64> {
    let mut drops = BTreeMap::new();
    for (&client, times) in &slot.dropped {
        *drops.entry(session.clients.place(client)).or_default() += times;
    }
    drops
}

fn draw_drops(svg: &mut Svg, session: &Ended, rows: &Rows, scale: &Scale, (number, slot): (u64, &Slot)) {
    for (row, times) in drops(session, slot) {
        let place = (scale.x(number), rows.top(row) - rows.drops / 2.0);
        let reads = if times == 1 { "1 read is".into() } else { format!("{} reads are", grouped(times)) };
        draw_dropped(svg, place, &format!("clock {number}: {reads} dropped, of {}", session.clients.name(row)), times);
    }
}

/// Some slots in a band of their own, each with its number. All bands of a session have one width, so that they shrink alike.
fn band(session: &Ended, slots: &[(u64, &Slot)], width_of_slot: f64, width: f64) -> String {
    let rows = Rows::new(session, 13.0, 20.0);
    let first = slots.first().map_or(0, |(number, _)| *number);
    let scale = Scale {
        first,
        end: first + slots.len() as u64,
        slot: width_of_slot,
    };
    let mut svg = rows.drawing(session, &scale, width);
    slots.iter().for_each(|&slot| draw_slot(&mut svg, session, &rows, &scale, slot));
    slots.iter().for_each(|&slot| draw_drops(&mut svg, session, &rows, &scale, slot));
    svg.drawing()
}

/// How wide a slot is in which the longest number has room, and a cross with its number above it; and how many slots a band has, which
/// is a round number.
fn layout(session: &Ended) -> (f64, usize) {
    let slots = &session.collected.recent.slots;
    let digits = |number: u64| number.to_string().len();
    let served = slots.iter().flat_map(|slot| &slot.served).map(|read| digits(read.number)).max().unwrap_or(1);
    let dropped = slots.iter().flat_map(|slot| drops(session, slot).into_values()).map(digits).max().unwrap_or(1);
    let width = (7 * served + 8).max(6 * dropped + 16) as f64;
    (width, ((WIDTH / width) as usize / 5 * 5).max(5))
}

/// The slots in bands below each other; nothing where they are too many.
pub fn bands(session: &Ended) -> Option<String> {
    let recent = &session.collected.recent;
    let (width_of_slot, length) = layout(session);
    let width = LEFT + width_of_slot * recent.slots.len().min(length) as f64 + RIGHT;
    let bands = recent.slots.len().div_ceil(length);
    let are_all = recent.first == 0 && bands * (session.clients.rows() + 1) <= MOST_ROWS;
    let slots: Vec<(u64, &Slot)> = (0..).zip(&recent.slots).collect();
    let bands = || slots.chunks(length).map(|slots| band(session, slots, width_of_slot, width)).collect::<String>();
    are_all.then(|| format!("{}{}", paragraph(&(SAID.to_string() + &periods(session))), drawings(&bands())))
}
