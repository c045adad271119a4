//! "Lists and plans": what is read off a list of calls and their answers, and nothing else.
use super::calls::{Call, CLOSED, DROPPED, IDLE, KEPT, REFUSED, SERVED};
use super::hours::Week;
use super::plan::Plan;
use std::collections::BTreeSet;

// "The list starts from the head and tables that an accepted open left".
pub struct List {
    // by number: "The list's requests are its submits that were not refused, whether answered kept or dropped."
    pub requests: BTreeSet<u64>,
    // "The clock at a submission is the number of ticks before it in the list that were not refused, whatever they answered."
    clock: u64,
    victims: BTreeSet<u64>,
    named_served: BTreeSet<u64>,
    pub plan: Plan,
    pub idle: u64,
    pub closed: u64,
    pub refused: u64,
}

impl List {
    // After an open with these hours.
    pub fn within(week: Week) -> List {
        List {
            requests: BTreeSet::new(),
            clock: 0,
            victims: BTreeSet::new(),
            named_served: BTreeSet::new(),
            plan: Plan::within(week),
            idle: 0,
            closed: 0,
            refused: 0,
        }
    }

    // One call more, and its answer.
    pub fn take(&mut self, call: &Call, answer: &[u64]) {
        match (call, answer) {
            (_, [REFUSED, _]) => self.refused += 1,
            (Call::Submit { deadline, .. }, [KEPT, number, ..]) => self.submitted(*number, *deadline),
            (Call::Submit { deadline, .. }, [DROPPED, number, victim, ..]) => {
                self.submitted(*number, *deadline);
                self.victims.insert(*victim);
            }
            (Call::Tick, _) => self.ticked(answer),
            _ => {}
        }
    }

    fn submitted(&mut self, number: u64, deadline: u64) {
        self.requests.insert(number);
        self.plan.add(self.clock, deadline);
    }

    fn ticked(&mut self, answer: &[u64]) {
        self.clock += 1;
        match answer {
            [SERVED, _, number, _] => {
                self.named_served.insert(*number);
            }
            [IDLE, _] => self.idle += 1,
            [CLOSED, _] => self.closed += 1,
            _ => {}
        }
    }

    // "Served since open are the requests that the answers to the list's ticks name as served."
    pub fn served(&self) -> usize {
        self.requests.intersection(&self.named_served).count()
    }

    // "Waiting are the list's requests that no answer in it names as victim or as served."
    pub fn waiting(&self) -> usize {
        let is_named = |number: &u64| self.victims.contains(number) || self.named_served.contains(number);
        self.requests.iter().filter(|number| !is_named(number)).count()
    }

    pub fn has_drops(&self) -> bool {
        !self.victims.is_empty()
    }
}
