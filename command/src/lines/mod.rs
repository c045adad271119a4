//! Lines as they are written: frames, words, the marks of hours in both, and the lines of an input.
pub mod frames;
pub mod input;
pub mod marks;
pub mod words;
