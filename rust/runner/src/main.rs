//! The runner's command.

#![forbid(unsafe_code)]

use std::process::ExitCode;

fn main() -> ExitCode {
    runner::command::main(std::env::args_os().skip(1))
}
