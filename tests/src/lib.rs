//! What the test programs and the benchmark share: the slow model; tables that are lent and the exported calls over them, alone
//! (`calls`) and beside the model (`held`); session frames; damages; random sessions and tables; how often each case came.
pub mod calls;
pub mod counted;
pub mod damages;
pub mod demand_3;
pub mod frames;
pub mod held;
pub mod model;
pub mod program;
pub mod random;
pub mod tables;

pub use counted::tally;
