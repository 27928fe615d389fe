//! What the command line asks for.

use crate::command::{mistake, unknown, with_mistakes, Options};
use crate::rows::Drawn;
use second::execute::Mistake;
use std::ffi::OsString;

/// A run's seed, its number of cases, the rows that their words are drawn
/// from, and the mistake to be noticed.
#[derive(Clone, Copy, Debug, PartialEq, Eq)]
pub struct Arguments {
    pub seed: u64,
    pub count: u64,
    pub drawn: Drawn,
    pub mistake: Mistake,
}

/// The seed of runs that are given none.
pub const SEED: u64 = 0x5EC0_0003;

const DEFAULT: Arguments = Arguments {
    seed: SEED,
    count: 1_000_000,
    drawn: Drawn::All,
    mistake: Mistake::None,
};

impl Arguments {
    /// Reads options in any order; each takes one value.
    pub fn read(words: impl Iterator<Item = OsString>) -> Result<Arguments, String> {
        let mut options = Options::new(words);
        let mut arguments = DEFAULT;
        while let Some(option) = options.option()? {
            match option.as_str() {
                "--seed" => arguments.seed = options.number(&option)?,
                "--count" => arguments.count = options.number(&option)?,
                "--request" => arguments.drawn = request(options.number(&option)?)?,
                "--mistake" => {
                    arguments.mistake = mistake(&options.value(&option)?, Mistake::named)?
                }
                _ => return Err(unknown(&option)),
            }
        }
        Ok(arguments)
    }
}

/// How to call the program, with the names of the mistakes.
pub fn usage() -> String {
    with_mistakes(
        "usage: compare [--seed S] [--count N] [--request 1|2] [--mistake NAME]\n\
         Compares the archive with the second program on N random states (1000000). With --request\n\
         words are drawn only from the rows that this request added to the table, and only these\n\
         rows are counted and judged, beside words without an encoding. Where there are loads and\n\
         stores among them, worked examples with the answer written out come first. With a mistake\n\
         the second program makes it, and a difference must be found.",
        &Mistake::NAMED,
    )
}

fn request(number: u64) -> Result<Drawn, String> {
    Drawn::of_request(number).ok_or_else(|| format!("{number}: no such request"))
}
