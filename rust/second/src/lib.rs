//! An independent second program for document 01 with requests 1, 2, 4, 5, 6,
//! 9 and 12: decodes, encodes and executes the words of nine SME instructions,
//! runs listings of them, takes and gives up tiles, and prints the inputs on
//! which it is compared with the first.

#![forbid(unsafe_code)]

pub mod commands;
pub mod count;
pub mod decode;
pub mod encode;
pub mod execute;
pub mod flat;
pub mod held;
pub mod inputs;
pub mod lines;
pub mod listing;
pub mod refusal;
#[cfg(test)]
mod tests;
