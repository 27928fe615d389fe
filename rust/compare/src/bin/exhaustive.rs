//! The command line of the exhaustive comparison.

#![forbid(unsafe_code)]

use compare::exhaustive::arguments::{Arguments, USAGE};
use compare::{command, exhaustive};
use std::process::ExitCode;

fn main() -> ExitCode {
    command::run("exhaustive", USAGE, Arguments::read, exhaustive::run)
}
