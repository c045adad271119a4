// The exported calls over tables of a test program, and what they answered.
pub use crate::tables::*;
use welsbell::raw;

// An answer's number and as many values as it has. One that the documents do not know shows all five.
pub fn answer(kind: u64, values: &Values) -> Vec<u64> {
    let count = match kind {
        OPENED => 0,
        IDLE | CHART | CLOSED | REFUSED => 1,
        KEPT | SERVED => 3,
        DROPPED => 4,
        _ => 5,
    };
    [&[kind], &values[..count]].concat()
}

// Makes an exported call, with its own arguments between the tables and the values. Report and chart only read the tables, and only
// open writes the hours; all get pointers that may be written through, so that a write would show.
macro_rules! lend {
    ($exported:ident, $tables:ident, $values:ident $(, $argument:expr)*) => {
        // SAFETY: the head, the hours, a setup, marks and the values are one of each, and every other pointer is good for as much
        // as the length behind it says. All are lent for this call alone.
        unsafe {
            raw::$exported(
                &raw mut $tables.head,
                &raw mut $tables.hours,
                $tables.waiting.as_mut_ptr(),
                $tables.waiting.len(),
                $tables.client_numbers.as_mut_ptr().cast(),
                $tables.client_numbers.len(),
                $($argument,)*
                $values,
            )
        }
    };
}

pub fn open(t: &mut Tables, setup: &Setup, marks: &Hours, values: &mut Values) -> u64 {
    lend!(welsbell_open, t, values, setup, marks)
}

pub fn submit(t: &mut Tables, client: u64, deadline: u64, values: &mut Values) -> u64 {
    lend!(welsbell_submit, t, values, client, deadline)
}

pub fn tick(t: &mut Tables, values: &mut Values) -> u64 {
    lend!(welsbell_tick, t, values)
}

pub fn report(t: &mut Tables, client: u64, values: &mut Values) -> u64 {
    lend!(welsbell_report, t, values, client)
}

pub fn chart(t: &mut Tables, output: &mut [u64], values: &mut Values) -> u64 {
    lend!(welsbell_chart, t, values, output.as_mut_ptr(), output.len())
}
