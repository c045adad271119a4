//! The proved calls and those by hand, each reached in the same way: through function pointers, over whole tables.
use crate::by_hand::calls::Calls;
use crate::by_hand::floor::Floor;
use crate::by_hand::lent::Lent;
use crate::by_hand::tuned::Tuned;
use tests::calls as proved;
use tests::model::Call;
use tests::tables::{Hours, Setup, Tables, Values};

pub struct Queue {
    pub name: &'static str,
    open: fn(&mut Tables, &Setup, &Hours, &mut Values) -> u64,
    submit: fn(&mut Tables, u64, u64, &mut Values) -> u64,
    tick: fn(&mut Tables, &mut Values) -> u64,
    report: fn(&mut Tables, u64, &mut Values) -> u64,
    chart: fn(&mut Tables, &mut [u64], &mut Values) -> u64,
}

// The last one only takes sound tables.
pub const QUEUES: [Queue; 3] = [PROVED, by_hand::<Tuned>("tuned"), by_hand::<Floor>("floor")];

const PROVED: Queue = Queue {
    name: "proved",
    open: proved::open,
    submit: proved::submit,
    tick: proved::tick,
    report: proved::report,
    chart: proved::chart,
};

const fn by_hand<Q: Calls>(name: &'static str) -> Queue {
    Queue {
        name,
        open: |t, setup, marks, values| Q::open(&mut Lent::whole(t), setup, marks, values),
        submit: |t, client, deadline, values| Q::submit(&mut Lent::whole(t), client, deadline, values),
        tick: |t, values| Q::tick(&mut Lent::whole(t), values),
        report: |t, client, values| Q::report(&Lent::whole(t), client, values),
        chart: |t, output, values| Q::chart(&Lent::whole(t), output, values),
    }
}

impl Queue {
    // Only a chart writes to the output.
    pub fn make(&self, call: &Call, t: &mut Tables, output: &mut [u64], values: &mut Values) -> u64 {
        match *call {
            Call::Open { setup, hours } => (self.open)(t, &setup, &hours, values),
            Call::Submit { client, deadline } => (self.submit)(t, client, deadline, values),
            Call::Tick => (self.tick)(t, values),
            Call::Report { client } => (self.report)(t, client, values),
            Call::Chart { .. } => (self.chart)(t, output, values),
        }
    }
}
