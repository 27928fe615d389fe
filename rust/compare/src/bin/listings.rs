//! The command line of the comparison of listings.

#![forbid(unsafe_code)]

use compare::listings::arguments::{usage, Arguments};
use compare::{command, listings};
use std::process::ExitCode;

fn main() -> ExitCode {
    command::run("listings", &usage(), Arguments::read, listings::run)
}
