//! How long the queues take for a call.
use crate::fail;
use crate::queues::{Queue, QUEUES};
use crate::timed::Timed;
use std::hint::black_box;
use std::sync::atomic::{fence, Ordering};
use std::time::Instant;
use tests::calls::answer;
use tests::tables::{Tables, MOST_RECORDS};

// How far the parts of the rounds are apart shows the noise.
const PARTS: usize = 3;
const ROUNDS_OF_A_PART: usize = 3_000;
pub const ROUNDS: usize = PARTS * ROUNDS_OF_A_PART;

// Of each queue.
type Nanoseconds = [f64; QUEUES.len()];

pub struct Row {
    pub timed: Timed,
    parts: [Nanoseconds; PARTS],
}

impl Row {
    pub fn least(&self) -> Nanoseconds {
        [0, 1, 2].map(|queue| self.parts.iter().map(|part| part[queue]).fold(f64::MAX, f64::min))
    }

    // By how many per cent the ratios of a part differ from those of all rounds, at most.
    pub fn noise(&self) -> f64 {
        let all = ratios(self.least());
        let percent = |part: &Nanoseconds| {
            let differences = ratios(*part).into_iter().zip(all).map(|(part, all)| (part / all - 1.0).abs());
            100.0 * differences.fold(0.0, f64::max)
        };
        self.parts.iter().map(percent).fold(0.0, f64::max)
    }
}

// The proved one's to the others'.
pub fn ratios([proved, tuned, floor]: [f64; 3]) -> [f64; 2] {
    [proved / tuned, proved / floor]
}

// Nanoseconds of one call. What it changed is put back first; the fence waits for that, so that none of it is in the time.
fn time(queue: &Queue, timed: &Timed, t: &mut Tables, output: &mut [u64]) -> f64 {
    let (queue, from) = (black_box(queue), &timed.tables);
    (t.head, t.hours) = (from.head, from.hours);
    t.waiting.copy_from_slice(&from.waiting);
    t.client_numbers.copy_from_slice(&from.client_numbers);
    let mut values = [0; 5];
    fence(Ordering::SeqCst);
    let start = Instant::now();
    let kind = queue.make(black_box(&timed.call), black_box(t), output, &mut values);
    let elapsed = start.elapsed();
    if kind != timed.answer {
        let answer = answer(kind, &values);
        fail(&format!("{}: {} answered {answer:X?}", timed.name, queue.name));
    }
    elapsed.as_nanos() as f64
}

// In each round the queues make the call in turn.
fn least_of_a_part(timed: &Timed) -> Nanoseconds {
    let (mut t, mut output) = (timed.tables.clone(), vec![0; MOST_RECORDS]);
    let mut least = [f64::MAX; QUEUES.len()];
    for _ in 0..ROUNDS_OF_A_PART {
        for (queue, least) in QUEUES.iter().zip(&mut least) {
            *least = least.min(time(queue, timed, &mut t, &mut output));
        }
    }
    least
}

// Each part goes over all of them, so that the parts of one are well apart in time.
pub fn measure(all: impl IntoIterator<Item = Timed>) -> Vec<Row> {
    let unmeasured = |timed| Row {
        timed,
        parts: [[f64::MAX; QUEUES.len()]; PARTS],
    };
    let mut rows: Vec<Row> = all.into_iter().map(unmeasured).collect();
    for part in 0..PARTS {
        for row in &mut rows {
            row.parts[part] = least_of_a_part(&row.timed);
        }
    }
    rows
}

// Nanoseconds of reading the clock twice, with nothing between.
pub fn clock() -> u128 {
    let readings = (0..ROUNDS).map(|_| Instant::now().elapsed().as_nanos());
    readings.min().unwrap_or_default()
}
