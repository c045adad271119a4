//! The experiments as data, and how their reads come to a queue that counts in whole slots. All times are whole microseconds.
use std::iter::repeat_n;

/// A slot is the paper's service time.
pub const SLOT: u64 = 137;
/// Reads arrive for so long.
pub const LENGTH: u64 = 1_000_000;

/// A client sends a burst of reads at time 0 and again after each interval; each read has to be served within its bound.
pub struct Client {
    pub interval: u64,
    pub burst: usize,
    pub bound: u64,
}

const fn client(interval: u64, burst: usize, bound: u64) -> Client {
    Client { interval, burst, bound }
}

/// How an experiment is drawn, as the paper has it.
#[derive(Clone, Copy)]
pub enum Drawn {
    /// Success and response over time.
    OverTime,
    /// The success of each client.
    ByClient,
}

pub struct Experiment {
    pub name: &'static str,
    pub drawn: Drawn,
    pub clients: &'static [Client],
}

/// Two clients, of which the second sends bursts, and the ten clients of the paper's table 1.
pub static EXPERIMENTS: [Experiment; 2] = [
    Experiment {
        name: "Experiment 1",
        drawn: Drawn::OverTime,
        clients: &[client(150, 1, 500), client(10_000, 15, 25_000)],
    },
    Experiment {
        name: "Experiment 2",
        drawn: Drawn::ByClient,
        clients: &[
            client(400, 1, 500),
            client(1_000, 1, 1_000),
            client(1_000, 1, 1_000),
            client(2_000, 1, 2_000),
            client(2_000, 1, 5_000),
            client(2_000, 1, 5_000),
            client(2_000, 1, 10_000),
            client(4_000, 2, 10_000),
            client(40_000, 20, 40_000),
            client(50_000, 25, 50_000),
        ],
    },
];

impl Experiment {
    /// Its reads in the order in which they are submitted: by time, and at the same time by client.
    pub fn arrivals(&self) -> Vec<Arrival> {
        let of_client = |(number, client): (usize, &Client)| client.arrivals(number);
        let mut arrivals: Vec<Arrival> = self.clients.iter().enumerate().flat_map(of_client).collect();
        arrivals.sort_by_key(|arrival| (arrival.time, arrival.client));
        arrivals
    }
}

impl Client {
    fn arrivals(&self, number: usize) -> Vec<Arrival> {
        let times = (0..LENGTH).step_by(self.interval as usize);
        let bursts = times.flat_map(|time| repeat_n(time, self.burst));
        bursts.map(|time| Arrival::new(number, time, self.bound)).collect()
    }
}

/// A read of an experiment.
#[derive(Clone, Copy, Debug, PartialEq, Eq)]
pub struct Arrival {
    /// Counted from 0, as the queue counts.
    pub client: usize,
    pub time: u64,
    /// The slot at whose start it is submitted, the first that does not start before its arrival.
    pub clock: u64,
    /// The last slot start by which its bound has not passed.
    pub deadline: u64,
}

impl Arrival {
    pub fn new(client: usize, time: u64, bound: u64) -> Arrival {
        Arrival {
            client,
            time,
            clock: time.div_ceil(SLOT),
            deadline: (time + bound) / SLOT,
        }
    }

    /// Where its deadline is not after the clock, no slot is left for it: it is never submitted, and is a miss.
    pub fn is_submitted(&self) -> bool {
        self.deadline > self.clock
    }
}

/// The places, among the arrivals, of the reads that are submitted at the start of each slot, up to the last deadline.
pub fn by_slot(arrivals: &[Arrival]) -> Vec<Vec<usize>> {
    let submitted = arrivals.iter().enumerate().filter(|(_, arrival)| arrival.is_submitted());
    let last = arrivals.iter().map(|arrival| arrival.deadline).max().unwrap_or_default();
    let mut slots = vec![vec![]; last as usize];
    submitted.for_each(|(place, arrival)| slots[arrival.clock as usize].push(place));
    slots
}

#[cfg(test)]
mod tests {
    use super::*;

    #[test]
    fn a_read_is_submitted_at_the_first_slot_start_not_before_its_arrival() {
        let clock = |time| Arrival::new(0, time, 500).clock;
        assert_eq!([0, 1, 136, 137, 138, 274].map(clock), [0, 1, 1, 1, 2, 2]);
    }

    #[test]
    fn a_deadline_is_rounded_down_to_a_slot_start() {
        let deadline = |time| Arrival::new(0, time, 500).deadline;
        // 500 µs are 3 slots and 89 µs, so that 48 µs later a fourth slot fits.
        assert_eq!([0, 47, 48, 137].map(deadline), [3, 3, 4, 4]);
    }

    #[test]
    fn a_read_for_which_no_slot_is_left_is_never_submitted() {
        // One slot fits exactly where the read arrives with the slot's start, and else is cut by both ends.
        let on_time = Arrival::new(0, 137, SLOT);
        let between = Arrival::new(1, 138, SLOT);
        assert_eq!((on_time.clock, on_time.deadline), (1, 2));
        assert_eq!((between.clock, between.deadline), (2, 2));
        assert_eq!(by_slot(&[on_time, between]), [vec![], vec![0]]);
    }

    #[test]
    fn arrivals_go_by_time_and_then_by_client() {
        const CLIENTS: [Client; 2] = [client(400_000, 1, 500), client(800_000, 2, 25_000)];
        let experiment = Experiment {
            name: "small",
            drawn: Drawn::ByClient,
            clients: &CLIENTS,
        };
        let order: Vec<(u64, usize)> = experiment.arrivals().iter().map(|arrival| (arrival.time, arrival.client)).collect();
        assert_eq!(order, [(0, 0), (0, 1), (0, 1), (400_000, 0), (800_000, 0), (800_000, 1), (800_000, 1)]);
    }

    #[test]
    fn the_experiments_have_the_paper_s_reads() {
        assert_eq!(EXPERIMENTS.each_ref().map(|experiment| experiment.arrivals().len()), [8_167, 8_000]);
    }
}
