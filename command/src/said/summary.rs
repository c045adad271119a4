//! What a session came to: counts by client, the largest shift, the longest wait, the busiest stretch, the refusals.
use crate::session::follow::{Counts, Event, Followed, Read};
use crate::numbers::{counted, grouped, mean, share};
use crate::said::say;
use std::collections::BTreeMap;
use std::fmt::{self, Display, Formatter};

/// A run of slots in each of which a read was served. Closed slots may lie between them, as they may in a segment.
#[derive(Clone, Copy, Default)]
struct Stretch {
    first: u64,
    /// The slot behind the last.
    end: u64,
    /// Without the closed ones.
    slots: u64,
    served: u64,
    dropped: u64,
}

#[derive(Default)]
pub struct Summary {
    /// The line of the open.
    line: u64,
    idle: u64,
    closed: u64,
    longest: Option<(u64, Read)>,
    stretch: Stretch,
    busiest: Stretch,
    /// Drops since the last slot passed: they belong to the slot that comes.
    dropped: u64,
    refused: BTreeMap<u64, u64>,
}

impl Summary {
    pub fn of_line(line: u64) -> Summary {
        Summary {
            line,
            ..Summary::default()
        }
    }

    pub fn take(&mut self, event: &Event) {
        match event {
            Event::Dropped(..) => self.dropped += 1,
            Event::Served { slot, read } => self.serve(*slot, *read),
            Event::Idle { .. } => {
                self.idle += 1;
                self.stretch = Stretch::default();
                self.dropped = 0;
            }
            Event::Closed { .. } => self.pass_closed(),
            Event::Refused(number) => *self.refused.entry(*number).or_default() += 1,
            _ => {}
        }
    }

    /// Drops in a closed slot belong to the stretch that it lies in, if it goes on behind it.
    fn pass_closed(&mut self) {
        self.closed += 1;
        if self.stretch.served == 0 {
            self.dropped = 0;
        }
    }

    fn serve(&mut self, slot: u64, read: Read) {
        if self.longest.is_none_or(|(last, longest)| slot - read.since > last - longest.since) {
            self.longest = Some((slot, read));
        }
        if self.stretch.served == 0 {
            self.stretch.first = slot;
        }
        self.stretch.slots += u64::from(self.stretch.end <= slot);
        self.stretch.end = slot + 1;
        self.stretch.served += 1;
        self.stretch.dropped += std::mem::take(&mut self.dropped);
        // One that has begun in the same slot is the same one.
        if self.stretch.slots > self.busiest.slots || self.stretch.first == self.busiest.first {
            self.busiest = self.stretch;
        }
    }

    /// Whether there is nothing to say of the session, which was followed to its end.
    pub fn is_empty(&self, followed: &Followed) -> bool {
        !followed.is_open && self.refused.is_empty()
    }

    pub fn shown<'a>(&'a self, followed: &'a Followed) -> Shown<'a> {
        Shown { summary: self, followed }
    }
}

/// A summary with the session that it is of, followed to its end.
pub struct Shown<'a> {
    summary: &'a Summary,
    followed: &'a Followed,
}

impl Shown<'_> {
    fn waiting_of(&self, client: usize) -> u64 {
        self.followed.waiting.values().filter(|read| read.client == client as u64).count() as u64
    }

    fn write_clients(&self, f: &mut Formatter) -> fmt::Result {
        writeln!(f, "client  submitted     served    dropped  waiting  miss ratio")?;
        let clients = &self.followed.clients;
        for (client, counts) in clients.iter().enumerate().filter(|(_, counts)| counts.submitted > 0) {
            write_row(f, &client.to_string(), counts, self.waiting_of(client))?;
        }
        write_row(f, "all", &clients.iter().sum(), self.followed.waiting.len() as u64)?;
        let silent = clients.iter().filter(|counts| counts.submitted == 0).count() as u64;
        if silent > 0 {
            writeln!(f, "{} had no read taken in.", counted(silent, "client"))?;
        }
        Ok(())
    }

    /// How busy the table was.
    fn write_shifts(&self, f: &mut Formatter) -> fmt::Result {
        let submitted = self.followed.clients.iter().map(|counts| counts.submitted).sum();
        if submitted == 0 {
            return Ok(());
        }
        let most = grouped(self.followed.largest_shift);
        let mean = mean(self.followed.shifts, submitted);
        writeln!(f, "Largest shift: {most}, on average {mean}.")
    }

    fn write_longest(&self, f: &mut Formatter) -> fmt::Result {
        let Some((slot, read)) = self.summary.longest else { return Ok(()) };
        let wait = counted(slot - read.since, "slot");
        writeln!(
            f,
            "Longest wait: {wait}, number {} of client {}, submitted at clock {} and served in slot {slot}.",
            read.number, read.client, read.since
        )?;
        let Stretch { first, end, served, dropped, .. } = self.summary.busiest;
        let (last, reads) = (end - 1, counted(served, "read"));
        writeln!(
            f,
            "Busiest stretch: slots {first} to {last}, {reads} served without an idle slot, {} dropped.",
            grouped(dropped)
        )
    }

    fn write_refused(&self, f: &mut Formatter) -> fmt::Result {
        let refused = &self.summary.refused;
        if refused.is_empty() {
            return write!(f, "Refused: nothing.");
        }
        let by_number = refused.iter().map(|(number, times)| format!("number {number}: {}", grouped(*times)));
        let by_number: Vec<String> = by_number.collect();
        let all = counted(refused.values().sum(), "line");
        write!(f, "Refused: {all} ({}).", by_number.join(", "))
    }
}

fn write_row(f: &mut Formatter, name: &str, counts: &Counts, waiting: u64) -> fmt::Result {
    let [submitted, served, dropped] = [counts.submitted, counts.served, counts.dropped].map(grouped);
    let (missed, of) = counts.missed();
    let ratio = share(missed, of);
    writeln!(f, "{name:>6} {submitted:>10} {served:>10} {dropped:>10} {waiting:>8}  {ratio:>10}")
}

impl Display for Shown<'_> {
    fn fmt(&self, f: &mut Formatter) -> fmt::Result {
        let Shown { summary, followed } = self;
        if !followed.is_open {
            writeln!(f, "No open was accepted.")?;
            return self.write_refused(f);
        }
        let slots = counted(followed.clock, "slot");
        let closed = say::closed(summary.closed, followed);
        writeln!(f, "{}", say::opened(summary.line, followed))?;
        writeln!(f, "{slots} passed, {} of them idle{closed}.", grouped(summary.idle))?;
        self.write_clients(f)?;
        self.write_shifts(f)?;
        self.write_longest(f)?;
        self.write_refused(f)
    }
}

#[cfg(test)]
mod tests {
    use super::*;
    use crate::lines::marks::Marks;
    use crate::session::hours::Hours;

    /// What is left of events, each of which is a drop, an idle or closed slot or a read that is served.
    fn busiest(events: &[Event]) -> (u64, u64, u64, u64) {
        let mut summary = Summary::default();
        events.iter().for_each(|event| summary.take(event));
        let Stretch { first, end, served, dropped, .. } = summary.busiest;
        (first, end, served, dropped)
    }

    const READ: Read = Read { deadline: 9, number: 1, client: 0, since: 0 };

    fn served(slot: u64) -> Event {
        Event::Served { slot, read: READ }
    }

    #[test]
    fn a_stretch_is_as_long_as_its_slots() {
        assert_eq!(busiest(&[served(0), served(0), served(0), Event::Idle { slot: 1 }, served(2), served(3)]), (2, 4, 2, 0));
        assert_eq!(busiest(&[served(4), served(4)]), (4, 5, 2, 0));
    }

    #[test]
    fn drops_belong_to_the_slot_that_comes() {
        let dropped = || Event::Dropped(READ, READ);
        assert_eq!(busiest(&[dropped(), Event::Idle { slot: 0 }, dropped(), served(1), dropped()]), (1, 2, 1, 1));
    }

    #[test]
    fn a_stretch_goes_on_behind_closed_slots_and_is_no_longer_for_them() {
        let closed = |slot: u64| Event::Closed { slot };
        let three = [served(0), closed(1), closed(2), served(3), Event::Idle { slot: 4 }, served(5), served(6), served(7)];
        assert_eq!(busiest(&three), (5, 8, 3, 0));
        assert_eq!(busiest(&three[..5]), (0, 4, 2, 0));
        assert_eq!(busiest(&[served(0), closed(1)]), (0, 1, 1, 0));
    }

    #[test]
    fn drops_in_closed_slots_belong_to_the_stretch_around_them() {
        let dropped = || Event::Dropped(READ, READ);
        let closed = |slot: u64| Event::Closed { slot };
        assert_eq!(busiest(&[dropped(), closed(0), served(1), dropped(), closed(2), served(3), dropped(), closed(4)]), (1, 4, 2, 1));
    }

    #[test]
    fn closed_slots_are_counted_where_hours_are_closed() {
        let said = |open: &str| {
            let hours = Hours::new(2, Marks::read(open, true).unwrap());
            let followed = Followed { is_open: true, clock: 3, hours, ..Followed::default() };
            let mut summary = Summary::default();
            summary.take(&Event::Closed { slot: 2 });
            summary.shown(&followed).to_string()
        };
        assert!(said("0,2").contains("An hour is 2 slots; 2 of 168 hours are open: 0, 2.\n3 slots passed, 0 of them idle, 1 closed.\n"));
        assert!(said("0-167").contains("\n3 slots passed, 0 of them idle.\n"));
    }

    #[test]
    fn shifts_are_summed_up_where_reads_were_submitted() {
        let said = |submitted: u64| {
            let clients = vec![Counts { submitted, ..Counts::default() }];
            let followed = Followed { is_open: true, clients, shifts: 10, largest_shift: 5, ..Followed::default() };
            Summary::default().shown(&followed).to_string()
        };
        assert!(said(3).contains("\nLargest shift: 5, on average 3.333.\n"));
        assert!(!said(0).contains("behind"));
    }
}
