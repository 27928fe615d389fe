//! The command line of the comparison.

#![forbid(unsafe_code)]

use compare::arguments::{usage, Arguments};
use compare::{command, run};
use std::process::ExitCode;

fn main() -> ExitCode {
    command::run("compare", &usage(), Arguments::read, run::run)
}
