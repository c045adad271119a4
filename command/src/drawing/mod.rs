//! Drawings and the pages that they stand on.
pub mod page;
pub mod svg;
