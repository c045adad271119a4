//! Demand 3: "For every list of calls from open on, served plus waiting is as many as the largest plan has". Requests, clocks,
//! served and waiting are read off the calls of a session and off the program's answers.
use crate::model::calls::{OPENED, REPORT};
use crate::model::lists::List;
use crate::model::{Call, Fault, Week};
use std::collections::BTreeMap;
use std::fmt::{self, Display, Formatter};

// A list is followed until it has so many requests.
const MOST_REQUESTS: usize = 60;

// A list of calls, with the waiting counts that the reports since the last other call gave.
struct Current {
    list: List,
    clients: usize,
    reported: BTreeMap<u64, u64>,
}

// The lists in the sessions, and what was found in those that were held to demand 3.
#[derive(Default)]
pub struct Lists {
    current: Option<Current>,
    pub lists: u64,
    calls: u64,
    with_drops: u64,
    with_idle: u64,
    with_closed: u64,
    with_refused: u64,
    sums: u64,
}

impl Lists {
    // One call of the session more.
    pub fn follow(&mut self, call: &Call, answer: &[u64]) -> Result<(), String> {
        if let (&Call::Open { setup, hours }, [OPENED]) = (call, answer) {
            self.end()?;
            self.current = Some(Current {
                list: List::within(Week::new(setup.slots_per_hour, hours, Fault::None)),
                clients: setup.clients as usize,
                reported: BTreeMap::new(),
            });
        }
        let Some(current) = &mut self.current else {
            return Ok(());
        };
        self.calls += 1;
        current.hold(call, answer)?;
        self.sums += current.hold_reports()?;
        if current.list.requests.len() == MOST_REQUESTS {
            self.end()?;
        }
        Ok(())
    }

    // The end of the list, or as far as it is held to demand 3.
    pub fn end(&mut self) -> Result<(), String> {
        let Some(Current { list, .. }) = self.current.take() else {
            return Ok(());
        };
        self.lists += 1;
        self.with_drops += u64::from(list.has_drops());
        self.with_idle += u64::from(list.idle > 0);
        self.with_closed += u64::from(list.closed > 0);
        self.with_refused += u64::from(list.refused > 0);
        let (size, again) = (list.plan.size(), list.plan.backwards().size());
        if size == again {
            Ok(())
        } else {
            Err(format!("the largest plan has {size}, and found backwards {again}"))
        }
    }

    pub fn fewest_of_a_kind(&self) -> u64 {
        let kinds = [
            self.with_drops,
            self.with_idle,
            self.with_closed,
            self.with_refused,
            self.sums,
        ];
        kinds.into_iter().min().unwrap_or_default()
    }
}

impl Display for Lists {
    fn fmt(&self, f: &mut Formatter) -> fmt::Result {
        let [drops, idle, closed, refused] = [self.with_drops, self.with_idle, self.with_closed, self.with_refused];
        writeln!(
            f,
            "demand 3: {} lists, {drops} with drops, {idle} with idle ticks, {closed} with closed ones, {refused} with refused calls",
            self.lists
        )?;
        write!(
            f,
            "held after each of {} calls, {} of them also with the sum of the reports",
            self.calls, self.sums
        )
    }
}

impl Current {
    // One call more. Demand 3: served plus waiting is as many as the largest plan has.
    fn hold(&mut self, call: &Call, answer: &[u64]) -> Result<(), String> {
        self.list.take(call, answer);
        let (served, waiting, largest) = (self.list.served(), self.list.waiting(), self.list.plan.size());
        if served + waiting != largest {
            return Err(format!(
                "served {served}, waiting {waiting}, but the largest plan has {largest}"
            ));
        }
        match (call, answer) {
            (_, &[REPORT, client, .., waiting]) => {
                self.reported.insert(client, waiting);
            }
            (Call::Submit { .. } | Call::Tick, _) => self.reported.clear(),
            _ => {}
        }
        Ok(())
    }

    // "The waiting count in the head after the list is their number": it shows where all clients were reported.
    fn hold_reports(&self) -> Result<u64, String> {
        let (waiting, sum) = (self.list.waiting() as u64, self.reported.values().sum::<u64>());
        match self.reported.len() {
            reported if reported < self.clients => Ok(0),
            _ if sum == waiting => Ok(1),
            _ => Err(format!("waiting {waiting}, but the reports' waiting counts come to {sum}")),
        }
    }
}
