//! Comparison of the second program with the proved archive, as hosts in
//! Rust have it: random states and worked examples go through both, and
//! every byte that they leave is compared.

#![forbid(unsafe_code)]

mod accesses;
pub mod arguments;
pub mod beyond;
pub mod case;
mod columns;
pub mod command;
pub mod counts;
pub mod difference;
mod elements;
pub mod exhaustive;
pub mod generate;
pub mod listings;
pub mod names;
pub mod outcomes;
pub mod pairs;
pub mod paths;
pub mod rows;
pub mod run;
pub mod seeded;
pub mod situations;
pub mod table;
#[cfg(test)]
mod tests;
pub mod tiles;
pub mod view;
pub mod worked;
