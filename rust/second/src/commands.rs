//! The commands of the second program: words and answers, line by line.

use crate::{count, inputs, lines};
use std::ffi::OsString;
use std::io::{self, BufRead, BufWriter, Write};
use std::process::ExitCode;

const USAGE: &str = "usage: second words | decode | fields | encode | count";

/// Runs the one command that `arguments` name.
pub fn run(arguments: &[OsString]) -> ExitCode {
    let command = match arguments {
        [only] => only.to_str(),
        _ => None,
    };
    let outcome = match command {
        Some("words") => print_words(),
        Some("decode") => answer_lines(lines::decode_line),
        Some("fields") => print_fields(),
        Some("encode") => answer_lines(lines::encode_line),
        Some("count") => print_counts(),
        _ => {
            eprintln!("{USAGE}");
            return ExitCode::from(2);
        }
    };
    match outcome {
        Ok(()) => ExitCode::SUCCESS,
        Err(message) => {
            eprintln!("second: {message}");
            ExitCode::FAILURE
        }
    }
}

/// Prints the decode test inputs.
fn print_words() -> Result<(), String> {
    print_all(
        inputs::words::list()
            .into_iter()
            .map(|(word, level)| lines::word_line(word, level)),
    )
}

/// Prints the encode test inputs.
fn print_fields() -> Result<(), String> {
    print_all(inputs::fields::list().iter().map(lines::fields_line))
}

/// Prints, for each level, how many words decode.
fn print_counts() -> Result<(), String> {
    print_all((0..=3).map(|level| format!("{level} {}", count::count(level))))
}

/// Answers the lines of standard input one by one. Answers to the lines
/// before a bad one are still printed.
fn answer_lines(answer: fn(&[u8]) -> Result<String, String>) -> Result<(), String> {
    let mut output = BufWriter::new(io::stdout().lock());
    for (before, line) in io::stdin().lock().split(b'\n').enumerate() {
        let number = before + 1;
        let line = line.map_err(|error| format!("line {number}: {error}"))?;
        let answered = answer(&line).map_err(|error| format!("line {number}: {error}"))?;
        writeln!(output, "{answered}").map_err(output_error)?;
    }
    output.flush().map_err(output_error)
}

/// Prints lines to buffered standard output.
fn print_all(lines: impl Iterator<Item = String>) -> Result<(), String> {
    let mut output = BufWriter::new(io::stdout().lock());
    for line in lines {
        writeln!(output, "{line}").map_err(output_error)?;
    }
    output.flush().map_err(output_error)
}

fn output_error(error: io::Error) -> String {
    format!("standard output: {error}")
}
