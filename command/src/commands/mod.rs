//! The commands, a file or a folder each.
pub mod compare;
pub mod draw;
pub mod frames;
pub mod read;
pub mod run;
