//! How often each case of hours came in sound tables, so that a comparison in which one never came can fail.
use crate::by_hand::slots::are_all_open;
use crate::by_hand::slots::some_closed::MANY;
use crate::by_hand::slots::week::Week;
use std::collections::BTreeMap;
use std::fmt::{Display, Formatter, Result};
use tests::tables::*;

// What a call came to: its answer, a chart's output, and what head, hours and tables were before.
pub struct Came {
    pub before: Tables,
    pub answer: Vec<u64>,
    pub output: Vec<u64>,
}

#[derive(Default)]
pub struct Cases(BTreeMap<String, u64>);

// All hours open, or some closed, of few slots or of many: so the calls by hand take several ways.
const WAYS: [&str; 3] = ["all open", "few", "many"];
const KINDS: [u64; 7] = [OPENED, KEPT, DROPPED, SERVED, IDLE, REPORT, CHART];

// Besides each answer in each way.
const OTHERS: [&str; 12] = [
    "few 89 while reads wait",
    "many 89 while reads wait",
    "few 89 while none waits",
    "many 89 while none waits",
    "few 89 and a period starts",
    "many 89 and a period starts",
    "few chart over closed slots",
    "many chart over closed slots",
    "few refusal 15",
    "many refusal 15",
    "few refusal 10",
    "many refusal 10",
];

impl Cases {
    pub fn count(&mut self, came: &Came) {
        let t = &came.before;
        let way = way(t);
        match came.answer[..] {
            [REFUSED, number] => self.add(format!("{way} refusal {number}")),
            [CLOSED, slot] => self.count_closed(way, t, slot),
            [kind, ..] => self.add(format!("{way} {kind:02X}")),
            [] => {}
        }
        if let [CHART, count] = came.answer[..] {
            if is_over_closed(t, &came.output[..count as usize]) {
                self.add(format!("{way} chart over closed slots"));
            }
        }
    }

    fn count_closed(&mut self, way: &str, t: &Tables, slot: u64) {
        let waits = if t.head.waiting > 0 { "reads wait" } else { "none waits" };
        self.add(format!("{way} 89 while {waits}"));
        if (slot + 1).is_multiple_of(t.head.setup.period) {
            self.add(format!("{way} 89 and a period starts"));
        }
    }

    fn add(&mut self, case: String) {
        *self.0.entry(case).or_default() += 1;
    }

    // What did not come; nothing if all did.
    pub fn missing(&self) -> Vec<String> {
        let answers = WAYS.iter().flat_map(|way| KINDS.map(|kind| format!("{way} {kind:02X}")));
        let all = answers.chain(OTHERS.map(String::from));
        all.filter(|case| !self.0.contains_key(case))
            .map(|case| format!("never {case}"))
            .collect()
    }
}

fn way(t: &Tables) -> &'static str {
    if are_all_open(&t.hours) {
        WAYS[0]
    } else if t.head.setup.slots_per_hour < MANY {
        WAYS[1]
    } else {
        WAYS[2]
    }
}

// Whether two start slots are apart, with no open one between.
fn is_over_closed(t: &Tables, starts: &[u64]) -> bool {
    let week = Week::new(&t.head, &t.hours);
    starts
        .windows(2)
        .any(|pair| pair[0] + 1 < pair[1] && week.open_before(pair[0] + 1) == week.open_before(pair[1]))
}

impl Display for Cases {
    fn fmt(&self, f: &mut Formatter) -> Result {
        let cases: Vec<String> = self.0.iter().map(|(case, times)| format!("{case} {times}")).collect();
        write!(f, "by hours: {}", cases.join(", "))
    }
}
