//! Times the archive's function beside the second program, a plain copy of
//! as many bytes (and clearing as many, for what zeroes), and a plain strided
//! loop: each encoding, the calls that might be much slower than others like
//! them, and those that are refused. The goal, where there is one, is for the
//! last ratio of the line, and a goal that is missed is told. Rows by
//! predicate have a table of their own, where a goal stands behind its ratio,
//! as have listings beside their words by single calls, and taking tiles and
//! giving them up, where it is a time. A run can be saved, and a later one be
//! compared with it.

#![forbid(unsafe_code)]

mod active;
mod against;
mod arguments;
mod contest;
mod contestants;
mod empty;
mod group;
mod list;
mod listings;
mod machine;
mod pair;
mod placed;
mod plain;
mod progress;
mod row;
mod run;
mod saved;
mod stack;
mod table;
mod task;
mod tiles;
mod timing;

use arguments::{Arguments, HELP, USAGE};
use compare::command;
use std::process::ExitCode;

fn main() -> ExitCode {
    command::run_with_help("bench", USAGE, HELP, Arguments::read, run::run)
}
