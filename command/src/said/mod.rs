//! What is said of a session: answers in words, and a summary.
pub mod say;
pub mod summary;
