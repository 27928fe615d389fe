//! The command line of the comparison with peers.

#![forbid(unsafe_code)]

use compare::command;
use peers::arguments::{usage, Arguments};
use peers::run;
use std::process::ExitCode;

fn main() -> ExitCode {
    command::run("peers", &usage(), Arguments::read, run::run)
}
