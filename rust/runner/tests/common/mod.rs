//! Running the real program.

use std::ffi::OsStr;
use std::io::Write;
use std::process::{Command, Output, Stdio};

/// The program, away from what the surroundings say about colour.
pub fn runner<S: AsRef<OsStr>>(arguments: &[S]) -> Command {
    let mut command = Command::new(env!("CARGO_BIN_EXE_runner"));
    command
        .args(arguments)
        .env_remove("NO_COLOR")
        .stdin(Stdio::null());
    command
}

/// What the program says about a script on standard input.
#[allow(dead_code)] // Each test file is a program of its own, and not all of them need it.
pub fn piped(arguments: &[&str], script: &[u8]) -> Output {
    let mut child = runner(arguments)
        .stdin(Stdio::piped())
        .stdout(Stdio::piped())
        .stderr(Stdio::piped())
        .spawn()
        .expect("the program starts");
    let mut input = child.stdin.take().expect("standard input is piped");
    // A script is short enough for the pipe, and the program may stop reading before its end.
    let _ = input.write_all(script);
    drop(input);
    child.wait_with_output().expect("the program ends")
}
