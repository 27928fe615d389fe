//! What the command line asks for.

use crate::states::Emulator;
use crate::words::{Disassembler, WordMistake};
use compare::command::{unknown, with_mistakes, Options};
use compare::exhaustive::blocks::{Draws, Workers};
use second::execute::Mistake;
use std::ffi::OsString;
use std::path::PathBuf;

/// The seed of runs that are given none.
const SEED: u64 = 0x5EC0_0005;
/// States of runs that are given no number: some minutes on two cores.
const COUNT: u64 = 3_000_000;

/// What is compared.
pub struct Arguments {
    pub words: bool,
    pub states: bool,
    pub draws: Draws,
    pub only: Option<u64>,
    pub workers: Workers,
    pub disassembler: Disassembler,
    pub emulator: Emulator,
    pub mistake: Option<AnyMistake>,
}

/// A mistake of one part.
#[derive(Clone, Copy)]
pub enum AnyMistake {
    OfWords(&'static WordMistake),
    OfStates(Mistake),
}

/// How to call the program, with the names of the mistakes.
pub fn usage() -> String {
    let words = WordMistake::all().map(|own| (own.name, ()));
    let states = Mistake::NAMED.iter().map(|&(name, _)| (name, ()));
    let names: Vec<_> = words.chain(states).collect();
    with_mistakes(include_str!("help.txt").trim_end(), &names)
}

impl Arguments {
    /// Reads options in any order.
    pub fn read(words: impl Iterator<Item = OsString>) -> Result<Arguments, String> {
        let mut options = Options::new(words);
        let mut arguments = Arguments::all();
        while let Some(option) = options.option()? {
            match option.as_str() {
                "--words-only" => arguments.states = false,
                "--states-only" => arguments.words = false,
                "--count" => arguments.draws.count = options.number(&option)?,
                "--seed" => arguments.draws.seed = options.number(&option)?,
                "--only" => arguments.only = Some(options.number(&option)?),
                "--threads" => arguments.workers.threads = options.number(&option)? as usize,
                "--disassembler" => {
                    arguments.disassembler.program = options.value(&option)?.into();
                }
                "--llvm" => arguments.disassembler.library = options.value(&option)?.into(),
                "--qemu" => arguments.emulator.program = options.value(&option)?.into(),
                "--machine" => arguments.emulator.machine = options.value(&option)?.into(),
                "--mistake" => arguments.mistake = Some(mistake(&options.value(&option)?)?),
                _ => return Err(unknown(&option)),
            }
        }
        arguments.checked()
    }

    /// Both parts on all cores, with programs where tests/peers.sh puts them.
    fn all() -> Arguments {
        let built = |name: &str| PathBuf::from("target/peers").join(name);
        Arguments {
            words: true,
            states: true,
            draws: Draws {
                seed: SEED,
                count: COUNT,
            },
            only: None,
            workers: Workers::on_all_cores(),
            disassembler: Disassembler {
                program: built("disassembler"),
                library: "libLLVM.so".into(),
            },
            emulator: Emulator {
                program: "qemu-aarch64".into(),
                machine: built("machine"),
            },
            mistake: None,
        }
    }

    fn checked(mut self) -> Result<Arguments, String> {
        if !self.words && !self.states {
            return Err("--words-only and --states-only: nothing is left".to_string());
        }
        if !(1..=1024).contains(&self.workers.threads) {
            return Err("--threads: from 1 to 1024".to_string());
        }
        match self.only {
            Some(0) => return Err("--only: the first state is 1".to_string()),
            // A longer run may have told of it.
            Some(only) => self.draws.count = self.draws.count.max(only),
            None => (),
        }
        Ok(self)
    }
}

fn mistake(name: &str) -> Result<AnyMistake, String> {
    let of_words = WordMistake::named(name).map(AnyMistake::OfWords);
    let of_states = || Mistake::named(name).map(AnyMistake::OfStates);
    let found = of_words.or_else(of_states);
    found.ok_or_else(|| format!("{name}: no such mistake"))
}

#[cfg(test)]
mod tests {
    use super::*;

    fn read(words: &[&str]) -> Result<Arguments, String> {
        Arguments::read(words.iter().map(OsString::from))
    }

    #[test]
    fn the_help_text_has_the_count_and_every_mistake() {
        let usage = usage();
        assert!(usage.contains(&format!("({COUNT})")));
        for own in WordMistake::all() {
            assert!(usage.contains(own.name));
        }
        for (name, _) in Mistake::NAMED {
            assert!(usage.contains(name));
        }
    }

    #[test]
    fn options_are_read() {
        let all = read(&[]).expect("no option is fine");
        assert!(all.words && all.states && all.mistake.is_none());
        let words = read(&["--words-only", "--llvm", "libLLVM.so.19.1"]).expect("options");
        assert!(words.words && !words.states);
        assert_eq!(words.disassembler.library, PathBuf::from("libLLVM.so.19.1"));
        let one = read(&["--states-only", "--only", "9000000", "--seed", "0x10"]).expect("options");
        assert_eq!((one.draws.count, one.draws.seed), (9_000_000, 16));
        assert!(read(&["--mistake", "OneWordMissing"]).is_ok());
        assert!(read(&["--mistake", "BigEndian"]).is_ok());
    }

    #[test]
    fn wrong_options_are_refused() {
        let wrong: [&[&str]; 6] = [
            &["--word"],
            &["--count"],
            &["--only", "0"],
            &["--threads", "0"],
            &["--words-only", "--states-only"],
            &["--mistake", "None"],
        ];
        for words in wrong {
            assert!(read(words).is_err(), "{words:?}");
        }
    }
}
