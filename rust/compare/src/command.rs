//! What every command line of this package has: options in any order, a
//! help text, and an exit status.

use std::env::{self, ArgsOs};
use std::ffi::OsString;
use std::iter::Skip;
use std::process::ExitCode;

/// Reads the command line and does what it asks for: status 0 if that
/// passes, 1 if not, 2 if the command line is not understood.
pub fn run<A>(
    name: &str,
    usage: &str,
    read: impl FnOnce(Skip<ArgsOs>) -> Result<A, String>,
    passes: impl FnOnce(&A) -> bool,
) -> ExitCode {
    run_with_help(name, usage, usage, read, passes)
}

/// The same with a help text that is too long to follow a mistake, which
/// would be out of sight: the usage follows it instead.
pub fn run_with_help<A>(
    name: &str,
    usage: &str,
    help: &str,
    read: impl FnOnce(Skip<ArgsOs>) -> Result<A, String>,
    passes: impl FnOnce(&A) -> bool,
) -> ExitCode {
    if env::args_os().any(|word| word == "--help") {
        println!("{help}");
        return ExitCode::SUCCESS;
    }
    match read(env::args_os().skip(1)) {
        Ok(arguments) if passes(&arguments) => ExitCode::SUCCESS,
        Ok(_) => ExitCode::FAILURE,
        Err(message) => {
            eprintln!("{name}: {message}\n{usage}");
            ExitCode::from(2)
        }
    }
}

/// The words of a command line that are still to be read.
pub struct Options<I> {
    words: I,
}

impl<I: Iterator<Item = OsString>> Options<I> {
    pub fn new(words: I) -> Options<I> {
        Options { words }
    }

    /// The next option, if there is one.
    pub fn option(&mut self) -> Result<Option<String>, String> {
        self.words.next().map(text).transpose()
    }

    /// The value that goes with `option`.
    pub fn value(&mut self, option: &str) -> Result<String, String> {
        let missing = || format!("{option}: a value is missing");
        self.option()?.ok_or_else(missing)
    }

    /// The value as a number, decimal or after 0x hexadecimal.
    pub fn number(&mut self, option: &str) -> Result<u64, String> {
        let value = self.value(option)?;
        let read = match value.strip_prefix("0x") {
            Some(digits) => u64::from_str_radix(digits, 16),
            None => value.parse(),
        };
        read.map_err(|error| format!("{value}: {error}"))
    }
}

/// A help text with the names of the mistakes behind it.
pub fn with_mistakes<M>(usage: &str, named: &[(&str, M)]) -> String {
    let names = named.iter().map(|(name, _)| format!("\n  NAME: {name}"));
    usage.to_string() + &names.collect::<String>()
}

/// The mistake that `named` finds by its name.
pub fn mistake<M>(name: &str, named: fn(&str) -> Option<M>) -> Result<M, String> {
    named(name).ok_or_else(|| format!("{name}: no such mistake"))
}

/// What to say of an option that there is not.
pub fn unknown(option: &str) -> String {
    format!("{option}: no such option")
}

fn text(word: OsString) -> Result<String, String> {
    let unreadable = |word: OsString| format!("{}: not readable", word.display());
    word.into_string().map_err(unreadable)
}
