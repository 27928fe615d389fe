//! The command line of the comparison of held tiles.

#![forbid(unsafe_code)]

use compare::tiles::arguments::{usage, Arguments};
use compare::{command, tiles};
use std::process::ExitCode;

fn main() -> ExitCode {
    command::run("tiles", &usage(), Arguments::read, tiles::run)
}
