//! The test inputs, made the same on every run.
//!
//! They are built from a third writing of the table (`rows`), which neither
//! decoding nor encoding looks at.

pub mod examples;
pub mod fields;
pub mod random;
mod row;
pub mod rows;
pub mod unique;
pub mod words;
