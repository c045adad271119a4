//! How often each answer and each case came, so that a test in which one never came can fail.
pub mod followed;
pub mod hours;
pub mod shifts;
pub mod tally;
