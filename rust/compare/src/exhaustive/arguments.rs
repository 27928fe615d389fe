//! What the command line of the exhaustive comparison asks for.

use super::blocks::{Draws, Workers};
use crate::arguments::SEED;
use crate::command::{unknown, Options};
use std::ffi::OsString;
use std::fmt::{self, Display, Formatter};

/// A part of the comparison.
#[derive(Clone, Copy, Debug, PartialEq, Eq)]
pub enum Part {
    Words,
    Fields,
    Executions,
}

/// Every part, in the order of comparing, with its name.
const PARTS: [(&str, Part); 3] = [
    ("words", Part::Words),
    ("fields", Part::Fields),
    ("executions", Part::Executions),
];

impl Display for Part {
    fn fmt(&self, f: &mut Formatter) -> fmt::Result {
        let mut named = PARTS.iter().filter(|(_, part)| part == self);
        named.try_for_each(|(name, _)| write!(f, "{name}"))
    }
}

/// More than any machine has cores, and few enough to be started.
const MAX_THREADS: usize = 1024;

/// What is compared, and on how many threads.
#[derive(Clone, Debug, PartialEq, Eq)]
pub struct Arguments {
    pub parts: Vec<Part>,
    /// The first and the last word.
    pub from: u32,
    pub to: u32,
    pub draws: Draws,
    pub workers: Workers,
}

pub const USAGE: &str = "\
usage: exhaustive [--words] [--fields] [--executions] [--from WORD] [--to WORD]
                  [--count N] [--seed S] [--threads N]
Compares the archive with the second program. Without one of the first three, all parts:
  --words        every word from one to the other (00000000 and FFFFFFFF, eight hexadecimal
                 digits) at levels 0 to 3, some also at levels that are none: decoded, and what
                 decodes encoded again
  --fields       each pair of the eleven numbers of many operations replaced by all values, and
                 N random combinations: encoded, and what is encodable decoded again
  --executions   N random states (10000000): every buffer, answer, address and element; in buffers
                 for longer vectors the archive runs each again with the bytes beyond inverted
The result depends on the seed, not on the number of threads (as many as there are cores).
Status 1 and the first difference in full if there is one.";

impl Arguments {
    /// Reads options in any order.
    pub fn read(words: impl Iterator<Item = OsString>) -> Result<Arguments, String> {
        let mut options = Options::new(words);
        let mut arguments = Arguments::all();
        let mut chosen = Vec::new();
        while let Some(option) = options.option()? {
            match option.as_str() {
                "--from" => arguments.from = word(&options.value(&option)?)?,
                "--to" => arguments.to = word(&options.value(&option)?)?,
                "--count" => arguments.draws.count = options.number(&option)?,
                "--seed" => arguments.draws.seed = options.number(&option)?,
                "--threads" => arguments.workers.threads = options.number(&option)? as usize,
                _ => chosen.push(part(&option)?),
            }
        }
        if !chosen.is_empty() {
            arguments.parts.retain(|part| chosen.contains(part));
        }
        arguments.checked()
    }

    /// All parts on all cores.
    fn all() -> Arguments {
        Arguments {
            parts: PARTS.iter().map(|&(_, part)| part).collect(),
            from: 0,
            to: u32::MAX,
            draws: Draws {
                seed: SEED,
                count: 10_000_000,
            },
            workers: Workers::on_all_cores(),
        }
    }

    fn checked(self) -> Result<Arguments, String> {
        if self.from > self.to {
            return Err("--from: the first word is above the last".to_string());
        }
        if !(1..=MAX_THREADS).contains(&self.workers.threads) {
            return Err(format!("--threads: from 1 to {MAX_THREADS}"));
        }
        Ok(self)
    }
}

fn part(option: &str) -> Result<Part, String> {
    let names = |&&(name, _): &&(&str, Part)| option.strip_prefix("--") == Some(name);
    let named = PARTS.iter().find(names);
    named.map(|&(_, part)| part).ok_or_else(|| unknown(option))
}

/// Exactly eight hexadecimal digits.
fn word(value: &str) -> Result<u32, String> {
    let digits = value.len() == 8 && value.bytes().all(|byte| byte.is_ascii_hexdigit());
    if !digits {
        return Err(format!("{value}: not eight hexadecimal digits"));
    }
    u32::from_str_radix(value, 16).map_err(|error| format!("{value}: {error}"))
}
