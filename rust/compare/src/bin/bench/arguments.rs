//! What the command line asks for.

use crate::timing::Effort;
use compare::command::{unknown, Options};
use std::ffi::OsString;
use std::path::PathBuf;

/// How long to time, which lines, and what to do with the table.
#[derive(Debug, PartialEq, Eq)]
pub struct Arguments {
    pub effort: Effort,
    pub only: Option<String>,
    pub save: Option<PathBuf>,
    pub against: Option<PathBuf>,
}

const FULL: Effort = Effort {
    rounds: 12,
    batches: 8,
    long_rounds: 3,
};

const QUICK: Effort = Effort {
    rounds: 4,
    batches: 3,
    long_rounds: 1,
};

impl Arguments {
    /// Reads options in any order.
    pub fn read(words: impl Iterator<Item = OsString>) -> Result<Arguments, String> {
        let mut options = Options::new(words);
        let mut arguments = Arguments {
            effort: FULL,
            only: None,
            save: None,
            against: None,
        };
        while let Some(option) = options.option()? {
            match option.as_str() {
                "--quick" => arguments.effort = QUICK,
                "--only" => arguments.only = Some(options.value(&option)?),
                "--save" => arguments.save = Some(options.value(&option)?.into()),
                "--against" => arguments.against = Some(options.value(&option)?.into()),
                _ => return Err(unknown(&option)),
            }
        }
        Ok(arguments)
    }

    /// The lines of a group that are asked for, behind the first, which they
    /// are set beside; none if none is.
    pub fn choose<T>(&self, mut group: Vec<T>, name: impl Fn(&T) -> &str) -> Vec<T> {
        let is_wanted = |line: &T| self.wants(name(line));
        if !group.iter().any(is_wanted) {
            return Vec::new();
        }
        let mut others = group.split_off(1);
        others.retain(is_wanted);
        group.extend(others);
        group
    }

    /// Whether a line of this name is asked for.
    pub fn wants(&self, name: &str) -> bool {
        self.only.as_ref().is_none_or(|text| name.contains(text))
    }
}

/// How to call the program, told behind a mistake.
pub const USAGE: &str = "\
usage: bench [--quick] [--only TEXT] [--save FILE] [--against FILE]
       bench --help";

pub const HELP: &str = "\
usage: bench [--quick] [--only TEXT] [--save FILE] [--against FILE]
Times the archive's function, in nanoseconds per call: the least of many batches, which go round
over all lines, and within a line from contestant to contestant. It takes a little over a minute.

  --quick          an eighth of the batches: for a look, not for comparing
  --only TEXT      only the lines whose name contains TEXT, and those that they are set beside
  --save FILE      write the table to FILE, for a later run
  --against FILE   compare with the run that wrote FILE: for each row the time then, the time now
                   and their ratio; then how many rows are faster, slower and the same within 5 %,
                   the geometric mean of the ratios by kind of row, and rows that one run lacks
  --help           this text

  archive    the unit, through the binding in Rust; 'empty call' is a function in its place that
             does nothing, so that no call can take less
  second     the second program
  copy       a plain copy of as many bytes, and clearing as many for what zeroes
  strided    a plain loop over the elements, where they stand apart
  /copy, /strided    the archive's time over that one's
  /room      where memory ends or begins inside the vector: over the archive's time for the same
             call with room to spare, which is the line before
  /all       in a table apart, of rows of 256 bytes by predicate: over the archive's time for the
             same call with all elements active, which is timed in turns with it
  /close     in a table apart, of vectors of 64 bytes in buffers for 256: over the archive's time
             for the same call in buffers for 64
  /single    in a table apart, of listings that are run in one call, with times of a word (of the
             call where the first is refused): over the archive's time for the same words by single
             calls, which is timed in turns with it
  goal       the most that the last of these ratios is to be, or by predicate the one before the
             goal, or of nanoseconds for tiles that are taken and given up; a goal that is missed
             is marked. Below the table by predicate stands, with its goal, the archive's time for
             moves of all bytes over that for moves of every second; below that of listings the time
             of a word in the longest over that in the shortest, and of a refused first word with
             others behind it over that of the word alone

m is the bytes of an element. Active are all elements, every second (alternating), every eighth
(sparse, the first alone where there are no more than eight), none, a half, or the last alone; or
none although every bit of the predicate is set that no element goes by (stray). In the table by
predicate there are also the first 100 of 256 (prefix); predicate bytes in turn of which all
elements are active and none is (whole and empty), or all and every second (whole and half); and
some by chance, the same in each run (random). A line that is called after an answer is refused with
it. A misaligned stack pointer is refused only where an element is active.

A saved table holds the times of one machine: only runs on the same machine compare, while it does
nothing else. SME_MOVE_LIB_DIR chooses the archive when the program is built, so an old archive and
a new one, in the folders OLD and NEW (full paths), are compared by

  SME_MOVE_LIB_DIR=OLD cargo run --release --bin bench -- --save FILE
  SME_MOVE_LIB_DIR=NEW cargo run --release --bin bench -- --against FILE

Status 0 if all was timed, missed goals or not; 1 if a call is not answered as it must be or a file
cannot be used; 2 if the command line is not understood.";

#[cfg(test)]
mod tests {
    use super::*;
    use crate::stack::PLACES;

    fn read(words: &[&str]) -> Result<Arguments, String> {
        Arguments::read(words.iter().map(OsString::from))
    }

    #[test]
    fn reads_options_in_any_order() {
        let none = read(&[]).expect("no options");
        let all = "--against old --quick --save new --only load";
        let all = read(&all.split(' ').collect::<Vec<_>>()).expect("all options");
        assert_eq!((none.effort, all.effort), (FULL, QUICK));
        assert_eq!((none.only, none.save, none.against), (None, None, None));
        assert_eq!(all.only, Some("load".to_string()));
        let paths = ["new", "old"].map(|name| Some(PathBuf::from(name)));
        assert_eq!([all.save, all.against], paths);
    }

    /// Every place of the stack has as many rounds as the others.
    #[test]
    fn rounds_go_over_all_places() {
        for effort in [FULL, QUICK] {
            assert_eq!(effort.rounds % PLACES, 0);
            assert!((1..=effort.rounds).contains(&effort.long_rounds));
        }
    }

    #[test]
    fn refuses_what_it_does_not_know() {
        let error = |words: &[&str]| read(words).expect_err("a refusal");
        assert_eq!(error(&["--fast"]), "--fast: no such option");
        assert_eq!(error(&["table"]), "table: no such option");
        assert_eq!(error(&["--save"]), "--save: a value is missing");
    }

    #[test]
    fn chooses_lines_and_what_they_are_beside() {
        let chosen = |only: &str| {
            let some = read(&["--only", only]).expect("an option");
            some.choose(vec!["room", "ends", "begins"], |name| name)
        };
        assert_eq!(chosen("begins"), ["room", "begins"]);
        assert_eq!(chosen("room"), ["room"]);
        assert_eq!(chosen("n"), ["room", "ends", "begins"]);
        assert!(chosen("load").is_empty());
    }

    #[test]
    fn wants_lines_by_a_part_of_their_name() {
        let some = read(&["--only", "m=1,"]).expect("an option");
        assert!(some.wants("load, m=1, horizontal, all"));
        assert!(!some.wants("load, m=16, horizontal, all"));
        assert!(read(&[]).expect("no options").wants("anything"));
    }
}
