//! The paper's figures, drawn from the runs.
mod by_client;
mod look;
mod over_time;
mod plot;

pub use by_client::{in_panels, whole};
pub use over_time::{response, success};
