//! The slots of a session in rows: a sign a slot for the client that was served, and below it whose reads were dropped.
use super::super::collect::recent::Slot;
use super::super::collect::Ended;
use super::wrapped;
use crate::numbers::grouped;

/// A client's sign is the one at its place; clients behind the last share one.
const SIGNS: &str = "0123456789abcdefghijklmnopqrstuvwxyzABCDEFGHIJKLMNOPQRSTUVWXYZ";
const BEHIND: char = '#';
const IDLE: char = '.';
pub const CLOSED: char = '/';
/// Where more were dropped at a slot than there are rows for.
const MORE: char = '+';
const MOST_DROPPED: usize = 4;

/// Signs stand in groups, so that a slot is found by counting.
const GROUP: usize = 10;
const DROPPED: &str = "dropped";

fn sign(client: u64) -> char {
    SIGNS.chars().nth(client as usize).unwrap_or(BEHIND)
}

/// What the signs stand for that are no client's number.
fn legend(clients: usize) -> String {
    let last = |most: usize| clients.min(most) - 1;
    let range = |from: usize, to: usize| match (sign(from as u64), sign(to as u64)) {
        (first, _) if from == to => format!("{first} is client {from}"),
        (first, last) if from + 1 == to => format!("{first} and {last} are clients {from} and {to}"),
        (first, last) => format!("{first} to {last} are clients {from} to {to}"),
    };
    let letters = (clients > 10).then(|| range(10, last(36)));
    let capitals = (clients > 36).then(|| range(36, last(62)));
    let behind = (clients > 62).then(|| format!("{BEHIND} is any client from 62 on"));
    let parts: Vec<String> = [letters, capitals, behind].into_iter().flatten().collect();
    if parts.is_empty() {
        String::new()
    } else {
        format!(" {}.", parts.join(", "))
    }
}

fn served(slot: &Slot) -> Vec<char> {
    match slot {
        Slot { has_passed: false, .. } => vec![],
        Slot { is_closed: true, .. } => vec![CLOSED],
        Slot { served, .. } if served.is_empty() => vec![IDLE],
        Slot { served, .. } => served.iter().map(|read| sign(read.client)).collect(),
    }
}

/// No more signs than show that there are more than rows.
fn dropped(slot: &Slot) -> Vec<char> {
    let signs = slot.dropped.iter().flat_map(|(&client, &times)| (0..times).map(move |_| sign(client)));
    signs.take(MOST_DROPPED + 1).collect()
}

/// The rows that stacks of signs make: the first has the first sign of each. A stack that is too high ends with the sign for more.
fn rows(stacks: &[Vec<char>], most: usize) -> Vec<String> {
    let height = stacks.iter().map(Vec::len).max().unwrap_or_default().min(most);
    let at = |stack: &Vec<char>, row: usize| match stack.get(row) {
        Some(_) if row + 1 == most && stack.len() > most => MORE,
        Some(&sign) => sign,
        None => ' ',
    };
    let signs = |row: usize| -> Vec<char> { stacks.iter().map(|stack| at(stack, row)).collect() };
    let groups = |signs: Vec<char>| -> Vec<String> { signs.chunks(GROUP).map(|group| group.iter().collect()).collect() };
    (0..height).map(|row| groups(signs(row)).join(" ").trim_end().to_string()).collect()
}

/// Some slots, with the number of the first in front.
fn line(first: u64, slots: &[&Slot], margin: usize) -> String {
    let stacks: Vec<Vec<char>> = slots.iter().map(|slot| served(slot)).collect();
    let served = rows(&stacks, usize::MAX);
    let stacks: Vec<Vec<char>> = slots.iter().map(|slot| dropped(slot)).collect();
    let dropped = rows(&stacks, MOST_DROPPED);
    let names = |name: String| [name].into_iter().chain(std::iter::repeat(String::new()));
    // Where the only slot has not passed, there is no sign, but drops stand below its number.
    let served = if served.is_empty() { vec![String::new()] } else { served };
    let served = names(first.to_string()).zip(served);
    let dropped = names(DROPPED.into()).zip(dropped);
    let lines: Vec<String> =
        served.chain(dropped).map(|(name, row)| format!("{name:>margin$}  {row}").trim_end().to_string()).collect();
    lines.join("\n")
}

/// All slots of a session, or the last of them, in rows of this width.
pub fn strip(session: &Ended, width: usize) -> String {
    let recent = &session.collected.recent;
    if recent.slots.is_empty() {
        return "No slot passed.".into();
    }
    // Rows begin at a round slot.
    let skipped = (recent.first.next_multiple_of(GROUP as u64) - recent.first) as usize;
    let first = recent.first + skipped as u64;
    let margin = DROPPED.len().max(recent.end().to_string().len());
    let length = GROUP * ((width.saturating_sub(margin + 1)) / (GROUP + 1)).max(1);
    let slots: Vec<&Slot> = recent.slots.iter().skip(skipped).collect();
    let which = match first {
        0 => "each slot".to_string(),
        _ => format!("the last {} of {} slots", grouped(slots.len() as u64), grouped(recent.end())),
    };
    let closed = if session.followed.hours.has_closed() { format!(", {CLOSED} is closed") } else { String::new() };
    let said = format!("Who was served in {which}, by client ({IDLE} is idle{closed}), and whose reads were dropped.");
    let said = said + &legend(session.followed.clients.len());
    let parts = slots.chunks(length).enumerate().map(|(place, slots)| line(first + (place * length) as u64, slots, margin));
    let head = format!("{:>margin$}", "slot");
    let lines: Vec<String> = [wrapped(&said, width), head].into_iter().chain(parts).collect();
    lines.join("\n")
}

#[cfg(test)]
mod tests {
    use super::*;
    use crate::session::follow::Read;
    use std::collections::BTreeMap;

    fn slot(client: Option<u64>, dropped: &[(u64, u64)]) -> Slot {
        let read = |client: u64| Read { deadline: 9, number: 1, client, since: 0 };
        Slot {
            has_passed: true,
            is_closed: false,
            served: client.map(read).into_iter().collect(),
            dropped: BTreeMap::from_iter(dropped.iter().copied()),
        }
    }

    #[test]
    fn a_slot_has_its_clients_sign() {
        assert_eq!((sign(0), sign(9), sign(10), sign(36), sign(61), sign(62), sign(255)), ('0', '9', 'a', 'A', 'Z', '#', '#'));
        assert_eq!(served(&slot(Some(11), &[])), ['b']);
        assert_eq!(served(&slot(None, &[])), ['.']);
        assert_eq!(served(&Slot { is_closed: true, ..slot(None, &[]) }), ['/']);
        assert!(served(&Slot::default()).is_empty());
    }

    #[test]
    fn drops_stand_below_their_slot() {
        let slots = [slot(Some(0), &[]), slot(Some(1), &[(0, 1), (2, 2)]), slot(None, &[(1, 1)])];
        let slots: Vec<&Slot> = slots.iter().collect();
        assert_eq!(line(40, &slots, 7), "     40  01.\ndropped   01\n          2\n          2");
    }

    #[test]
    fn more_drops_than_rows_are_cut() {
        let slots = [slot(Some(0), &[(0, 1_000_000)]), slot(Some(0), &[(3, 4)])];
        let stacks: Vec<Vec<char>> = slots.iter().map(dropped).collect();
        assert_eq!(rows(&stacks, MOST_DROPPED), ["03", "03", "03", "+3"]);
    }

    #[test]
    fn signs_stand_in_groups_of_ten() {
        let stacks = vec![vec!['1']; 23];
        assert_eq!(rows(&stacks, 1), ["1111111111 1111111111 111"]);
    }

    #[test]
    fn drops_at_a_slot_that_has_not_passed_are_drawn() {
        let coming = Slot {
            dropped: BTreeMap::from([(1, 1)]),
            ..Slot::default()
        };
        assert_eq!(line(0, &[&coming], 7), "      0\ndropped  1");
    }

    #[test]
    fn signs_that_are_no_number_are_explained() {
        assert_eq!(legend(10), "");
        assert_eq!(legend(11), " a is client 10.");
        assert_eq!(legend(12), " a and b are clients 10 and 11.");
        assert_eq!(legend(63), " a to z are clients 10 to 35, A to Z are clients 36 to 61, # is any client from 62 on.");
    }
}
