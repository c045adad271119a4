//! `welsbell draw` on random sessions, beside the model: what is said of each session, the sign of each slot, and on the page every row
//! of the table, every box and every cross; and the page of `welsbell compare` beside its table.
use crate::checks::{ended, numbers, option_for, Checks, Welsbell};
use crate::list::{turns, List, Turn};
use std::collections::BTreeMap;
use std::fs::read_to_string;
use tests::frames::open;
use tests::model::calls::CHART;
use tests::model::session::SEGMENT;
use tests::random::session::session;
use tests::random::Random;

const SESSIONS: u64 = 60;

/// So many clients have rows of their own, and so many sessions of a file are drawn.
const CLIENTS: u64 = 10;
const DRAWN: usize = 24;

/// So many slots of a session have signs, or fewer, so that the first has a number of whole tens.
const SIGNED: usize = 2_000;

const SIGNS: &str = "0123456789abcdefghijklmnopqrstuvwxyzABCDEFGHIJKLMNOPQRSTUVWXYZ";

fn is_so(is_so: bool, told: impl FnOnce() -> String) -> Result<(), String> {
    is_so.then_some(()).ok_or_else(told)
}

/// What stands between two marks, each time.
fn between<'a>(text: &'a str, from: &'a str, to: &'a str) -> Vec<&'a str> {
    text.split(from).skip(1).filter_map(|part| part.split(to).next()).collect()
}

/// The value of an attribute in what follows.
fn attribute<'a>(element: &'a str, name: &str) -> &'a str {
    element.split(&format!(" {name}=\"")).nth(1).and_then(|value| value.split('"').next()).unwrap_or_default()
}

fn same(what: &str, mut came: Vec<String>, mut expected: Vec<String>) -> Result<(), String> {
    came.sort();
    expected.sort();
    let differ = came.iter().zip(&expected).find(|(came, expected)| came != expected);
    is_so(came == expected, || format!("{what}: {} came and {} were expected, {differ:?}", came.len(), expected.len()))
}

/// A session of a file with what it comes to, and its turns.
struct Drawn<'a> {
    place: usize,
    list: List,
    turns: &'a [Turn<'a>],
}

impl Drawn<'_> {
    /// The text: what is said of the session, and behind it the strip of signs.
    fn hold_text(&self, said: &str, strip: &str) -> Result<(), String> {
        let expected = [vec![self.place as u64], self.list.opened(), self.list.outcome()].concat();
        is_so(numbers(said) == expected, || format!("{said}: expected {expected:?}"))?;
        let sign = |(slot, client): (u64, Option<u64>)| match client {
            Some(client) => SIGNS.chars().nth(client as usize).unwrap_or('#'),
            None if self.list.is_closed(slot) => '/',
            None => '.',
        };
        let served = self.list.clients_served();
        let first = served.len().saturating_sub(SIGNED).next_multiple_of(10);
        let expected: String = (0..).zip(served).skip(first).map(sign).collect();
        // A row of signs stands behind the number of its first slot, below the word at the head.
        let margin = strip.lines().find(|line| line.trim() == "slot").map_or(0, str::len);
        let rows = strip.lines().filter_map(|line| line.split_at_checked(margin));
        let rows = rows.filter(|(first, _)| first.trim().parse::<u64>().is_ok());
        let signs: String = rows.map(|(_, signs)| signs.replace(' ', "")).collect();
        is_so(signs == expected, || format!("{strip}: expected {expected}"))
    }

    fn hold_table(&self, head: &str) -> Result<(), String> {
        let rows: Vec<Vec<u64>> = between(head, "<tr><td>", "</tr>").into_iter().map(numbers).collect();
        let clients = (0..self.list.clients).filter(|_| self.list.clients <= CLIENTS);
        let expected: Vec<Vec<u64>> = clients.map(Some).chain([None]).map(|client| self.list.row(client)).collect();
        let came = &rows[rows.len().saturating_sub(expected.len())..];
        is_so(came == expected, || format!("rows {rows:?}, expected {expected:?}"))
    }

    /// Boxes, idle and closed slots and crosses, where slots are drawn one by one.
    fn hold_slots(&self, part: &str) -> Result<bool, String> {
        let titles: Vec<String> = between(part, "<title>", "</title>").into_iter().map(String::from).collect();
        if !part.contains("A box is a slot") || self.list.clients > CLIENTS {
            return Ok(false);
        }
        let idle = (0..).zip(self.list.clients_served()).filter(|(_, client)| client.is_none());
        let why = |slot: u64| if self.list.is_closed(slot) { "closed" } else { "nothing waits" };
        let idle = idle.map(|(slot, _): (u64, _)| format!("slot {slot}: {}", why(slot)));
        let cross = |((clock, client), times): ((u64, u64), u64)| match times {
            1 => format!("clock {clock}: 1 read is dropped, of client {client}"),
            _ => format!("clock {clock}: {times} reads are dropped, of client {client}"),
        };
        let crosses = self.list.drops().into_iter().map(cross);
        same("slots", titles, self.list.served_titles().into_iter().chain(idle).chain(crosses).collect())?;
        part.split("<svg ").skip(1).try_for_each(hold_places)?;
        Ok(true)
    }

    /// The boxes of the charts, where all are drawn read by read.
    fn hold_charts(&self, part: &str) -> Result<bool, String> {
        let is_chart = |turn: &Turn| matches!(turn.answers[0][..], [SEGMENT | CHART, ..]);
        let places = (0..self.turns.len()).filter(|&place| is_chart(&self.turns[place]));
        let expected: Vec<String> = places.flat_map(|place| List::of(&self.turns[..place]).chart_titles()).collect();
        if part.contains("evenly chosen") || part.contains("A column stands for") {
            return Ok(false);
        }
        let titles: Vec<String> = between(part, "<title>", "</title>").into_iter().map(String::from).collect();
        same("charts", titles, expected).map(|()| true)
    }
}

/// The next row below a cross has the name of the client whose read it is.
fn hold_crosses(svg: &str, rows: &BTreeMap<&str, &str>) -> Result<(), String> {
    between(svg, "<title>clock ", "</g>").into_iter().try_for_each(|drawn| {
        let (title, cross) = drawn.split_once("</title>").unwrap_or_default();
        let from: f64 = attribute(cross, "d").split(['M', ' ', 'l']).nth(2).and_then(|y| y.parse().ok()).unwrap_or_default();
        let below = rows.iter().filter_map(|(name, y)| Some((y.parse::<f64>().ok()?, *name))).filter(|(y, _)| *y > from);
        let next = below.min_by(|(a, _), (b, _)| a.total_cmp(b)).map(|(_, name)| name);
        is_so(next.is_some_and(|name| title.ends_with(&format!(" of {name}"))), || format!("{title}: {cross}, rows {rows:?}"))
    })
}

/// A box stands in the row that has its client's name, and over the number of its slot where the axis has it; a cross stands above its row.
fn hold_places(svg: &str) -> Result<(), String> {
    let labels = || svg.split("<text").skip(1).filter_map(|label| Some((label, label.split(['>', '<']).nth(1)?)));
    let rows = labels().filter(|(_, name)| name.starts_with("client ")).map(|(label, name)| (name, attribute(label, "y")));
    let rows: BTreeMap<&str, &str> = rows.collect();
    hold_crosses(svg, &rows)?;
    let is_axis = |label: &str| attribute(label, "font-size") == "11" && attribute(label, "fill") == "#222222";
    let slots = labels().filter(|(label, _)| is_axis(label)).map(|(label, slot)| (slot, attribute(label, "x")));
    let slots: BTreeMap<&str, &str> = slots.collect();
    between(svg, "<title>slot ", "</g>").into_iter().filter(|drawn| drawn.contains(" of client ")).try_for_each(|drawn| {
        let (title, boxes) = drawn.split_once("</title>").unwrap_or_default();
        let said = numbers(title);
        let (slot, client) = (said[0].to_string(), format!("client {}", said[2]));
        let label = boxes.split("<text").nth(1).unwrap_or_default();
        let is_in_row = rows.get(client.as_str()) == Some(&attribute(label, "y"));
        let left: f64 = attribute(boxes, "x").parse().unwrap_or_default();
        let is_over = slots.get(slot.as_str()).is_none_or(|x| x.parse::<f64>().is_ok_and(|x| (left - 0.5 - x).abs() < 0.02));
        is_so(is_in_row && is_over, || format!("{title}: {boxes}, rows {rows:?}, slots {slots:?}"))
    })
}

/// A file of sessions. How many of them have all their slots, and all their charts, drawn one by one.
fn hold_file(welsbell: &Welsbell, input: &[u8]) -> Result<[usize; 2], String> {
    let page = welsbell.folder.join("page.html");
    let turns = turns(input);
    let lists: Vec<&[Turn]> = turns.chunk_by(|_, next| !next.is_opened()).filter(|list| list[0].is_opened()).collect();
    let came = welsbell.ended(&format!("draw {} - {}", option_for(input), page.display()), input)?;
    is_so(came.code == Some(0) && came.err.is_empty(), || format!("{came:?}"))?;
    came.hold_plain()?;
    if lists.is_empty() {
        return is_so(came.out.starts_with("No open"), || came.out).map(|()| [0, 0]);
    }
    let text: Vec<&str> = came.out.split("\n\n").collect();
    let heads: Vec<usize> = (0..text.len()).filter(|&place| text[place].starts_with("Session ")).collect();
    let page = read_to_string(page).map_err(|error| error.to_string())?;
    let sections: Vec<&str> = page.split("<h2>Session ").skip(1).collect();
    let first = lists.len().saturating_sub(DRAWN);
    is_so(heads.len() == lists.len() - first && sections.len() == heads.len(), || format!("{} sessions are drawn", heads.len()))?;
    let drawn = (first + 1..).zip(&lists[first..]).map(|(place, turns)| Drawn { place, list: List::of(turns), turns });
    let mut wholly = [0, 0];
    for (drawn, (head, section)) in drawn.zip(heads.into_iter().zip(sections)) {
        drawn.hold_text(text[head], text[head + 1])?;
        let [head, slots, _, charts] = section.split("<h3>").collect::<Vec<_>>()[..] else {
            return Err("the page has other parts".into());
        };
        drawn.hold_table(head)?;
        wholly[0] += usize::from(drawn.hold_slots(slots)?);
        wholly[1] += usize::from(drawn.hold_charts(charts)?);
    }
    Ok(wholly)
}

const POLICIES: usize = 4;

type Table<'a> = Vec<Vec<&'a str>>;

/// The rows of a table on a page, without its head.
fn rows_of(table: &str) -> Table<'_> {
    between(table, "<tr><td>", "</td></tr>").into_iter().map(|row| row.split("</td><td>").collect()).collect()
}

/// A policy in an experiment, as a row of the table has it: on the page the numbers stand in the first table, and the worst client's in
/// this client's row too.
fn hold_policy(tables: &[Table], (experiment, policy): (usize, usize), line: &str) -> Result<(), String> {
    let cells: Vec<&str> = line.split("  ").map(str::trim).filter(|cell| !cell.is_empty()).collect();
    let [name, system, worst] = cells[..] else { return Err(format!("`{line}` has other cells")) };
    let (ratio, client) = worst.split_once(", client ").ok_or("no worst client")?;
    let summed = &tables[0][policy];
    let expected = [name, system, &format!("{ratio} (client {client})")];
    let came = [summed[0], summed[2 * experiment + 1], summed[2 * experiment + 2]];
    is_so(came == expected, || format!("{summed:?}, expected {expected:?}"))?;
    let of_client = tables[experiment + 1].iter().find(|row| row[0] == client).ok_or("no such client")?;
    is_so(of_client[policy + 4] == ratio, || format!("{of_client:?}, expected {ratio}"))
}

/// The page of a comparison beside its table.
fn hold_comparison(welsbell: &Welsbell) -> Result<(), String> {
    let path = welsbell.folder.join("compare.html");
    let table = welsbell.ended("compare", "")?.out;
    welsbell.ended(&format!("compare {}", path.display()), "")?.hold(0, &["The page is "], &[])?;
    let page = read_to_string(path).map_err(|error| error.to_string())?.replace('\u{a0}', " ");
    let tables: Vec<Table> = between(&page, "<table>", "</table>").into_iter().map(rows_of).collect();
    let parts: Vec<&str> = table.split("\nExperiment ").skip(1).collect();
    let lines = parts.iter().flat_map(|part| part.lines().skip(1).take(POLICIES));
    let lines: Vec<&str> = lines.collect();
    (0..).zip(&lines).try_for_each(|(place, line)| hold_policy(&tables, (place / POLICIES, place % POLICIES), line))?;
    let is_drawn = |client: usize| page.contains(&format!("average response of client {client} over time"));
    is_so(lines.len() == 2 * POLICIES && is_drawn(1) && is_drawn(2), || format!("{} rows, or a figure is missing", lines.len()))
}

/// So many sessions that not all are drawn, with so many charts that not all are.
fn hold_many(welsbell: &Welsbell) -> Result<(), String> {
    let path = welsbell.folder.join("many.html");
    let session = open(1, 1, 1) + &"\n05".repeat(13) + "\n";
    let came = welsbell.ended(&format!("draw - {}", path.display()), session.repeat(25))?;
    came.hold(0, &["The file has 25 sessions; the last 24 are drawn.\n\nSession 2. "], &[])?;
    let page = read_to_string(path).map_err(|error| error.to_string())?;
    let charts = [&came.out, &page].map(|drawn| drawn.matches("Chart in line ").count());
    is_so(charts == [48, 120], || format!("{charts:?} charts are drawn"))
}

/// More slots than are drawn as signs, and rows that are as wide as the terminal.
fn hold_widths(welsbell: &Welsbell) -> Result<(), String> {
    let long = welsbell.ended("draw -", open(1, 1, 1) + &"\n03".repeat(2_005) + "\n")?;
    long.hold(0, &["the last 1,995 of 2,005 slots", "\n   slot\n     10  .......... ", "\n     70  .......... "], &[])?;
    for (columns, signs) in [("120", 100), ("0", 60), ("wide", 60), ("1", 20), ("9999", 210)] {
        let mut command = welsbell.command("draw -");
        let came = ended(command.env("COLUMNS", columns), open(1, 1, 1) + &"\n03".repeat(300) + "\n")?;
        let row = came.out.lines().find(|line| line.starts_with("      0  ")).unwrap_or_default();
        is_so(row.matches('.').count() == signs, || format!("COLUMNS={columns}: {row}"))?;
    }
    Ok(())
}

pub fn hold(welsbell: &Welsbell, seed: u64, checks: &mut Checks) {
    let mut wholly = [0, 0];
    for number in 0..SESSIONS {
        let held = hold_file(welsbell, &session(Random::of_part(seed, number), false));
        let held = held.map(|[slots, charts]| wholly = [wholly[0] + slots, wholly[1] + charts]);
        checks.hold(&format!("seed {seed}, drawing {number}"), held);
    }
    checks.hold("drawings", is_so(wholly.iter().all(|&sessions| sessions > 0), || format!("{wholly:?} are drawn one by one")));
    checks.hold("the page of a comparison", hold_comparison(welsbell));
    checks.hold("a drawing of many sessions", hold_many(welsbell));
    checks.hold("drawings of many widths", hold_widths(welsbell));
    let [slots, charts] = wholly;
    checks.tell(format!(
        "{SESSIONS} files drawn, the slots of {slots} sessions and the charts of {charts} one by one: all as the model says"
    ));
}
