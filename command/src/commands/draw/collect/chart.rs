//! An occupancy chart as it was answered, with the reads that waited.
use crate::session::follow::Read;
use crate::session::hours::Hours;

/// So many stretches of free slots and closed ones in turn are drawn between two reads.
const MOST_IN_TURN: usize = 6;

pub struct Chart {
    /// The line that asked for it.
    pub line: u64,
    pub clock: u64,
    pub hours: Hours,
    /// Each from its left end to its right, from the left.
    pub segments: Vec<(u64, u64)>,
    /// In chart order.
    pub reads: Vec<Read>,
}

/// A stretch of a chart: a slot with its read, a free or closed slot, or some of these that are drawn as one.
#[derive(Debug, PartialEq)]
pub struct Stretch {
    pub left: u64,
    pub right: u64,
    pub read: Option<Read>,
    /// How many of its slots are closed.
    pub closed: u64,
}

impl Stretch {
    /// Whether it stands for several slots.
    pub fn is_cut(&self) -> bool {
        self.right - self.left > 1
    }

    /// Whether all its slots are.
    pub fn is_closed(&self) -> bool {
        self.closed == self.right - self.left
    }
}

impl Chart {
    /// Each waiting read with its slot. A segment is a run of slots without a free one, so that the reads in chart order fill the open
    /// slots of the segments from the left.
    pub fn placed(&self) -> impl Iterator<Item = (u64, Read)> + '_ {
        let slots = self.segments.iter().flat_map(|&(left, right)| left..right);
        slots.filter(|&slot| self.hours.is_open(slot)).zip(self.reads.iter().copied())
    }

    /// Where the last segment ends.
    pub fn right(&self) -> u64 {
        self.segments.last().map_or(self.clock, |&(_, right)| right)
    }

    /// Where the last segment ends and no deadline is later: there are closed slots between them, if any.
    pub fn end(&self) -> u64 {
        self.reads.last().map_or(self.clock, |read| read.deadline.max(self.right()))
    }

    /// Whether a closed slot is drawn.
    pub fn has_closed(&self) -> bool {
        (self.clock..self.end()).any(|slot| !self.hours.is_open(slot))
    }

    /// From the clock to the end. More than so many slots behind each other that are free, or closed, are one stretch.
    pub fn stretches(&self, most: u64) -> Vec<Stretch> {
        let mut stretches = vec![];
        let mut end = self.clock;
        for (slot, read) in self.placed() {
            stretches.extend(self.between(end, slot, most));
            let (left, right, read) = (slot, slot + 1, Some(read));
            stretches.push(Stretch { left, right, read, closed: 0 });
            end = right;
        }
        stretches.extend(self.between(end, self.end(), most));
        stretches
    }

    /// The slots between two reads. Where free and closed ones take turns too often, they are one stretch; closed ones before the first
    /// free one are not, since a read may have to end in them.
    fn between(&self, left: u64, right: u64, most: u64) -> Vec<Stretch> {
        let mut runs = self.runs(left, right);
        let in_turn = runs.split_off(runs.iter().take_while(|run| run.is_closed()).count());
        let in_turn = if in_turn.len() > MOST_IN_TURN { joined(&in_turn) } else { in_turn };
        runs.into_iter().chain(in_turn).flat_map(|run| cut(run, most)).collect()
    }

    /// Runs of slots that are free or closed. One ends where a read has to end, so that no deadline lies within a stretch.
    fn runs(&self, left: u64, right: u64) -> Vec<Stretch> {
        let mut runs: Vec<Stretch> = vec![];
        for slot in left..right {
            let is_closed = !self.hours.is_open(slot);
            match runs.last_mut() {
                Some(run) if run.is_closed() == is_closed && !self.is_deadline(slot) => {
                    run.right += 1;
                    run.closed += u64::from(is_closed);
                }
                _ => runs.push(without_read(slot, slot + 1, is_closed)),
            }
        }
        runs
    }

    /// Whether a read has to end with the start of this slot.
    pub fn is_deadline(&self, slot: u64) -> bool {
        self.reads.binary_search_by_key(&slot, |read| read.deadline).is_ok()
    }
}

/// Slots of which all are free, or all closed.
fn without_read(left: u64, right: u64, is_closed: bool) -> Stretch {
    let closed = if is_closed { right - left } else { 0 };
    Stretch { left, right, read: None, closed }
}

/// Runs behind each other as one stretch.
fn joined(runs: &[Stretch]) -> Vec<Stretch> {
    let (Some(first), Some(last)) = (runs.first(), runs.last()) else { return vec![] };
    let (left, right, closed) = (first.left, last.right, runs.iter().map(|run| run.closed).sum());
    vec![Stretch { left, right, read: None, closed }]
}

/// The slots of a run one by one, or the run where they are more than so many.
fn cut(run: Stretch, most: u64) -> Vec<Stretch> {
    if run.right - run.left > most {
        return vec![run];
    }
    let is_closed = run.is_closed();
    (run.left..run.right).map(|slot| without_read(slot, slot + 1, is_closed)).collect()
}

#[cfg(test)]
pub mod tests {
    use super::*;
    use crate::lines::marks::Marks;

    /// A chart at clock 0 of reads with these deadlines, numbered from 1 in this order, which is chart order. Every hour is open.
    pub fn chart_of(deadlines: &[u64], segments: &[(u64, u64)]) -> Chart {
        let read = |(place, &deadline): (usize, &u64)| Read {
            deadline,
            number: place as u64 + 1,
            client: 0,
            since: 0,
        };
        Chart {
            line: 5,
            clock: 0,
            hours: Hours::default(),
            segments: segments.to_vec(),
            reads: deadlines.iter().enumerate().map(read).collect(),
        }
    }

    /// The same with so many slots an hour, and these hours open.
    pub fn chart_in_hours(slots: u64, open: &str, deadlines: &[u64], segments: &[(u64, u64)]) -> Chart {
        let hours = Hours::new(slots, Marks::read(open, true).unwrap());
        Chart { hours, ..chart_of(deadlines, segments) }
    }

    fn slots_of(chart: &Chart) -> Vec<(u64, u64)> {
        chart.placed().map(|(slot, read)| (slot, read.number)).collect()
    }

    #[test]
    fn reads_fill_the_segments_from_the_left() {
        let chart = chart_of(&[3, 5, 10, 10], &[(2, 3), (4, 5), (8, 10)]);
        assert_eq!(slots_of(&chart), [(2, 1), (4, 2), (8, 3), (9, 4)]);
    }

    #[test]
    fn reads_in_one_segment_touch() {
        let chart = chart_of(&[1, 2], &[(0, 2)]);
        assert_eq!(slots_of(&chart), [(0, 1), (1, 2)]);
    }

    #[test]
    fn nothing_waiting_has_no_slot() {
        let chart = chart_of(&[], &[]);
        assert!(slots_of(&chart).is_empty() && chart.stretches(3).is_empty());
        assert_eq!(chart.right(), 0);
    }

    #[test]
    fn few_free_slots_stand_one_by_one() {
        let stretches = chart_of(&[3, 5, 10, 10], &[(2, 3), (4, 5), (8, 10)]).stretches(3);
        assert_eq!(stretches.len(), 10);
        assert!(stretches.iter().all(|stretch| !stretch.is_cut()));
    }

    #[test]
    fn many_free_slots_are_one_stretch() {
        let stretches = chart_of(&[3, 500], &[(2, 3), (499, 500)]).stretches(3);
        let ends: Vec<(u64, u64)> = stretches.iter().map(|stretch| (stretch.left, stretch.right)).collect();
        assert_eq!(ends, [(0, 1), (1, 2), (2, 3), (3, 499), (499, 500)]);
        assert!(stretches[3].is_cut() && stretches[3].read.is_none());
    }

    /// Each stretch from its left end to its right, with how many of its slots are closed.
    fn ends(stretches: &[Stretch]) -> Vec<(u64, u64, u64)> {
        stretches.iter().map(|stretch| (stretch.left, stretch.right, stretch.closed)).collect()
    }

    #[test]
    fn reads_fill_the_open_slots_of_a_segment() {
        // Slots 0, 1, 4 and 5 are open.
        let chart = chart_in_hours(2, "0,2", &[3, 5], &[(1, 5)]);
        assert_eq!(slots_of(&chart), [(1, 1), (4, 2)]);
        assert_eq!(ends(&chart.stretches(3)), [(0, 1, 0), (1, 2, 0), (2, 3, 1), (3, 4, 1), (4, 5, 0)]);
        assert_eq!(ends(&chart.stretches(1)), [(0, 1, 0), (1, 2, 0), (2, 3, 1), (3, 4, 1), (4, 5, 0)]);
        assert!(chart.has_closed());
    }

    #[test]
    fn a_closed_run_is_cut_where_a_read_has_to_end() {
        // Hour 1, slots 10 to 19, is closed: the reads that have to end in it have slots 7 to 9.
        let chart = chart_in_hours(10, "0,2", &[12, 15, 20], &[(7, 10)]);
        assert_eq!(slots_of(&chart), [(7, 1), (8, 2), (9, 3)]);
        let expected = [(0, 7, 0), (7, 8, 0), (8, 9, 0), (9, 10, 0), (10, 12, 2), (12, 15, 3), (15, 20, 5)];
        assert_eq!(ends(&chart.stretches(1)), expected);
        assert_eq!((chart.right(), chart.end()), (10, 20));
    }

    #[test]
    fn slots_that_are_free_and_closed_in_turn_are_one_stretch() {
        let every_second: Vec<String> = (0..168).step_by(2).map(|hour| hour.to_string()).collect();
        let chart = chart_in_hours(1, &every_second.join(","), &[2, 101], &[(0, 1), (100, 101)]);
        assert_eq!(ends(&chart.stretches(3)), [(0, 1, 0), (1, 2, 1), (2, 100, 49), (100, 101, 0)]);
        let stretches = chart.stretches(3);
        assert!(stretches[1].is_closed() && !stretches[2].is_closed() && stretches[2].is_cut());
    }

    #[test]
    fn with_every_hour_open_a_chart_ends_with_its_last_segment() {
        let chart = chart_of(&[3, 5, 10, 10], &[(2, 3), (4, 5), (8, 10)]);
        assert_eq!((chart.right(), chart.end(), chart.has_closed()), (10, 10, false));
    }
}
