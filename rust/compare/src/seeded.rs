//! Comparisons whose command line has a seed, a count and a mistake and no
//! more: how it is read, and what is printed of a run.

use crate::arguments::SEED;
use crate::command::{mistake, unknown, Options};
use crate::exhaustive::blocks::Draws;
use std::ffi::OsString;
use std::fmt::{Debug, Display};
use std::time::Instant;

/// The number of random things of runs that are given none.
const COUNT: u64 = 200_000;

/// What the second program of a comparison can be wrong about.
pub trait Mistaken: Copy + Debug + PartialEq {
    const NONE: Self;

    /// The mistake of that name.
    fn named(name: &str) -> Option<Self>;
}

/// The seed of the run, the number of its random things, and the mistake to
/// be noticed.
#[derive(Clone, Copy, Debug, PartialEq, Eq)]
pub struct Arguments<M> {
    pub draws: Draws,
    pub mistake: M,
}

impl<M: Mistaken> Arguments<M> {
    /// Reads options in any order; each takes one value.
    pub fn read(words: impl Iterator<Item = OsString>) -> Result<Arguments<M>, String> {
        let mut options = Options::new(words);
        let mut arguments = Arguments {
            draws: Draws {
                seed: SEED,
                count: COUNT,
            },
            mistake: M::NONE,
        };
        while let Some(option) = options.option()? {
            match option.as_str() {
                "--seed" => arguments.draws.seed = options.number(&option)?,
                "--count" => arguments.draws.count = options.number(&option)?,
                "--mistake" => arguments.mistake = mistake(&options.value(&option)?, M::named)?,
                _ => return Err(unknown(&option)),
            }
        }
        Ok(arguments)
    }
}

/// The counts of what agrees.
pub trait Judged: Display {
    /// An error, a line for each, if something that can occur is missing.
    fn check(&self) -> Result<(), String>;

    /// How much was compared.
    fn compared(&self) -> String;
}

/// Compares what is asked for and prints what was found. True if it passes:
/// no difference and nothing missing, or a mistake that is noticed.
pub fn run<M: Mistaken, C: Judged>(
    arguments: &Arguments<M>,
    compare: impl FnOnce(&Arguments<M>) -> Result<C, String>,
) -> bool {
    let Arguments { draws, mistake } = arguments;
    println!("seed 0x{:X}, count {}", draws.seed, draws.count);
    let start = Instant::now();
    let compared = compare(arguments);
    if *mistake == M::NONE {
        passes(compared, start)
    } else {
        is_noticed(*mistake, compared.err())
    }
}

/// Prints the counts and the verdict. True if all agree and nothing that can
/// occur is missing.
fn passes<C: Judged>(compared: Result<C, String>, start: Instant) -> bool {
    let passed = compared.and_then(|counts| {
        print!("{counts}");
        counts.check().map(|()| counts.compared())
    });
    match passed {
        Ok(compared) => {
            let seconds = start.elapsed().as_secs_f64();
            println!("{compared}, no difference, {seconds:.1} s");
            true
        }
        Err(message) => {
            println!("{message}");
            false
        }
    }
}

/// Tells of the difference that the mistake makes. True if there is one.
fn is_noticed(mistake: impl Debug, found: Option<String>) -> bool {
    match found.as_ref().and_then(|message| message.lines().next()) {
        Some(first) => println!("{mistake:?}: noticed, {first}"),
        None => println!("{mistake:?}: NOT noticed"),
    }
    found.is_some()
}
