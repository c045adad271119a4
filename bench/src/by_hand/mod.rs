//! The five calls by hand: over tables that they check, and over tables that they trust.
pub mod calls;
pub mod floor;
pub mod lent;
pub mod slots;
pub mod tuned;
