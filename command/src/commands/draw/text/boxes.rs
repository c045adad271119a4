//! An occupancy chart as text: boxes in their slots, or a list where they have no room.
use super::super::collect::chart::{Chart, Stretch};
use super::super::said;
use super::strip::CLOSED;
use super::{lines, wrapped};
use crate::session::follow::Read;
use crate::numbers::grouped;

/// So wide are the names of the rows.
const MARGIN: usize = 10;
/// So wide is a box with its left edge, where there is room.
const BOX: usize = 6;
/// So many reads are listed.
const LISTED: usize = 10;
const FEW: usize = 2;

/// How a chart is laid out: how wide a slot is, and its stretches.
struct Layout {
    slot: usize,
    stretches: Vec<Stretch>,
}

impl Layout {
    /// The first that fits, from the widest on: with narrow boxes, and then with fewer free slots.
    fn fitting(chart: &Chart, width: usize) -> Option<Layout> {
        let digits = |number: u64| number.to_string().len();
        let number = chart.reads.iter().map(|read| digits(read.number)).max().unwrap_or_default();
        let narrow = (number + 3).max(digits(chart.end()) + 2);
        let layouts = [(narrow.max(BOX), 3), (narrow, 3), (narrow, 1)];
        let layouts = layouts.into_iter().map(|(slot, most_free)| Layout {
            slot,
            stretches: chart.stretches(most_free),
        });
        layouts.into_iter().find(|layout| MARGIN + layout.slot * layout.stretches.len() + digits(chart.end()) <= width)
    }

    /// A row with something for each slot, in the middle of it.
    fn row(&self, name: &str, shown: impl Fn(&Stretch) -> String) -> String {
        let inner = self.slot - 1;
        let cells: String = self.stretches.iter().map(|stretch| format!(" {:^inner$}", shown(stretch))).collect();
        format!("{name:MARGIN$}{cells}")
    }

    fn of_read(&self, name: &str, shown: impl Fn(&Read) -> u64) -> String {
        self.row(name, |stretch| stretch.read.as_ref().map(|read| shown(read).to_string()).unwrap_or_default())
    }

    /// A row of boxes: what stands at their edges, and what in a stretch.
    fn boxes(&self, name: &str, edge: char, shown: impl Fn(&Stretch) -> String) -> String {
        let inner = self.slot - 1;
        let mut row = format!("{name:MARGIN$}");
        let mut is_behind_box = false;
        for stretch in &self.stretches {
            let is_box = stretch.read.is_some();
            row.push(if is_box || is_behind_box { edge } else { ' ' });
            row += &format!("{:^inner$}", shown(stretch));
            is_behind_box = is_box;
        }
        row.push(if is_behind_box { edge } else { ' ' });
        row
    }

    /// What stands in a box, or where there is none.
    fn inside(&self, stretch: &Stretch) -> String {
        let inner = self.slot - 1;
        let dots = if stretch.is_cut() { "..." } else { "" };
        match &stretch.read {
            Some(read) => read.number.to_string(),
            None if stretch.is_closed() => format!("{dots:/^inner$}"),
            None => dots.into(),
        }
    }

    /// The numbers of the slots, each in the middle above its left edge.
    fn slots(&self, end: u64) -> String {
        let lefts = self.stretches.iter().map(|stretch| stretch.left).chain([end]);
        let mut row = "slot".to_string();
        for (place, left) in lefts.enumerate() {
            let left = left.to_string();
            let start = (MARGIN + place * self.slot).saturating_sub((left.len() - 1) / 2);
            row = format!("{row:start$}{left}");
        }
        row
    }

    fn drawn(&self, chart: &Chart) -> Vec<String> {
        let line = "-".repeat(self.slot - 1);
        let border = self.boxes("", '+', |stretch| stretch.read.map(|_| line.clone()).unwrap_or_default());
        vec![
            self.slots(chart.end()),
            border.clone(),
            self.boxes("number", '|', |stretch| self.inside(stretch)),
            border,
            self.of_read("client", |read| read.client),
            self.of_read("ends by", |read| read.deadline),
        ]
    }
}

/// A read a line, the first of them; all, where few would be left out.
fn list(chart: &Chart) -> Vec<String> {
    let head = format!("{:>10}{:>10}{:>8}{:>10}", "slot", "number", "client", "ends by");
    let line = |(slot, read): (u64, Read)| format!("{slot:>10}{:>10}{:>8}{:>10}", read.number, read.client, read.deadline);
    let waiting = chart.reads.len();
    let listed = if waiting > LISTED + FEW { LISTED } else { waiting };
    let more = format!(
        "{:>10}  {} more, up to slot {}",
        "and",
        grouped((waiting - listed) as u64),
        chart.right().saturating_sub(1)
    );
    let more = (listed < waiting).then_some(more);
    [head].into_iter().chain(chart.placed().take(listed).map(line)).chain(more).collect()
}

pub fn chart(chart: &Chart, width: usize) -> String {
    if chart.reads.is_empty() {
        return wrapped(&said::heading(chart), width);
    }
    let layout = Layout::fitting(chart, width);
    let has_closed = layout.as_ref().is_some_and(|layout| layout.stretches.iter().any(Stretch::is_closed));
    let closed = if has_closed { format!(" {CLOSED} is closed.") } else { String::new() };
    let head = wrapped(&(said::heading(chart) + &closed), width);
    let rows = layout.map_or_else(|| list(chart), |layout| layout.drawn(chart));
    let named = lines(&said::segments(chart), width - MARGIN).join(&format!("\n{:MARGIN$}", ""));
    let named = format!("{:MARGIN$}{named}", "segments");
    let rows = rows.iter().map(|row| row.trim_end().to_string());
    let parts: Vec<String> = [head].into_iter().chain(rows).chain([named]).collect();
    parts.join("\n")
}

#[cfg(test)]
mod tests {
    use super::super::super::collect::chart::tests::{chart_in_hours, chart_of};
    use super::*;

    #[test]
    fn reads_stand_in_boxes() {
        let drawn = chart(&chart_of(&[1, 2], &[(0, 2)]), 80);
        let expected = "\
Chart in line 5, at clock 0: 2 reads wait.
slot      0     1     2
          +-----+-----+
number    |  1  |  2  |
          +-----+-----+
client       0     0
ends by      1     2
segments  [0, 2]";
        assert_eq!(drawn, expected);
    }

    #[test]
    fn closed_slots_are_hatched() {
        let drawn = chart(&chart_in_hours(2, "0,2", &[3, 5], &[(1, 5)]), 80);
        let expected = "\
Chart in line 5, at clock 0: 2 reads wait. / is closed.
slot      0     1     2     3     4     5
                +-----+           +-----+
number          |  1  |///// /////|  2  |
                +-----+           +-----+
client             0                 0
ends by            3                 5
segments  [1, 5]";
        assert_eq!(drawn, expected);
    }

    #[test]
    fn a_chart_goes_on_to_a_deadline_in_a_closed_hour() {
        let drawn = chart(&chart_in_hours(10, "0,2", &[10, 17], &[(8, 10)]), 80);
        assert!(drawn.contains("slot      0     8     9     10    17"), "{drawn}");
        assert!(drawn.contains("number      ... |  1  |  2  |/.../"), "{drawn}");
    }

    #[test]
    fn free_slots_are_cut_where_they_are_many() {
        let drawn = chart(&chart_of(&[1, 500], &[(0, 1), (499, 500)]), 80);
        assert!(drawn.contains("slot      0     1    499   500"), "{drawn}");
        assert!(drawn.contains("number    |  1  | ... |  2  |"), "{drawn}");
    }

    #[test]
    fn a_narrow_terminal_has_narrow_boxes() {
        let drawn = chart(&chart_of(&[3, 5, 10, 10], &[(2, 3), (4, 5), (8, 10)]), 60);
        assert!(drawn.contains("number            | 1 |   | 2 |           | 3 | 4 |"), "{drawn}");
    }

    #[test]
    fn a_list_is_not_cut_for_few() {
        let listed = |count: u64| list(&chart_of(&(1..=count).collect::<Vec<_>>(), &[(0, count)]));
        assert_eq!((listed(12).len(), listed(13).len()), (13, 12));
        assert_eq!(listed(13)[11], "       and  3 more, up to slot 12");
    }

    #[test]
    fn many_reads_are_a_list_that_is_cut() {
        let deadlines: Vec<u64> = (1..=40).collect();
        let drawn = chart(&chart_of(&deadlines, &[(0, 40)]), 80);
        assert!(drawn.contains("and  30 more, up to slot 39"), "{drawn}");
        assert!(drawn.lines().all(|line| line.len() <= 80));
    }
}
