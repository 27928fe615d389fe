//! The two contestants of each line, and lines that are timed in turns.

use super::list::Line;
use crate::contestants::lend_again;
use crate::machine::Machine;
use crate::placed::Placed;
use crate::row::{Part, Record, Row};
use crate::timing::{Caller, Timed, Times, Turn};
use compare::case::{archive_settings, Function};
use compare::listings::ended::Runner;
use sme_move::numbers;
use std::hint::black_box;

/// Where the listing begins within a page: not where the rows do that its
/// words write.
const PLACE: usize = 0x200;

/// A line, and what its contestants are lent.
pub struct Called {
    pub line: Line,
    pub machine: Machine,
    bytes: Placed<u8>,
}

impl Called {
    pub fn new(line: Line) -> Called {
        let words = line.words.iter().flat_map(|word| word.to_le_bytes());
        let mut bytes = Placed::new(PLACE, 4 * line.words.len(), 0);
        bytes.copy_from_slice(&words.collect::<Vec<u8>>());
        Called {
            machine: line.task.machine(),
            line,
            bytes,
        }
    }

    /// What the archive answers, and how many words it does, which must be
    /// what the line says.
    fn check(&mut self) -> Result<(), String> {
        let settings = archive_settings(&self.machine.settings);
        let lent = self.machine.lend();
        let (answer, _, _, done) = numbers::run_listing(settings, &self.bytes, u64::MAX, lent);
        let Line { name, task, .. } = &self.line;
        if (answer, done) == (self.line.answer, self.line.done as u64) {
            return Ok(());
        }
        Err(format!(
            "{name}, vector length {}: the archive answers {answer} after {done} words",
            task.vector_bytes
        ))
    }

    /// The listing in one call.
    pub fn listing(&mut self, caller: &mut impl Caller) {
        let settings = archive_settings(&self.machine.settings);
        let function: Runner = black_box(numbers::run_listing);
        let mut buffers = self.machine.lend();
        let (bytes, buffers) = black_box((&self.bytes[..], &mut buffers));
        caller.make(|| function(settings, bytes, u64::MAX, lend_again(buffers)).0);
    }

    /// Its words by single calls, up to the first that is not done.
    pub fn singles(&mut self, caller: &mut impl Caller) {
        let settings = archive_settings(&self.machine.settings);
        let function: Function = black_box(numbers::execute);
        let mut buffers = self.machine.lend();
        let (words, buffers) = black_box((&self.line.words[..], &mut buffers));
        caller.make(|| {
            let call = |word: &u32| function(settings, *word, lend_again(buffers)).0;
            words.iter().map(call).find(|answer| *answer != 0)
        });
    }
}

/// A line and the times of its contestants.
struct Contest {
    called: Called,
    listing: Times,
    singles: Times,
}

impl Contest {
    fn new(line: Line) -> Contest {
        Contest {
            called: Called::new(line),
            listing: Times::new(),
            singles: Times::new(),
        }
    }

    /// Runs one batch of each contestant.
    fn turn(&mut self) {
        self.called.listing(&mut self.listing);
        self.called.singles(&mut self.singles);
    }

    /// Times are of a word, or of the call where the first is refused.
    fn row(&self) -> Row {
        let Line {
            name,
            kind,
            task,
            goal,
            done,
            ..
        } = &self.called.line;
        let words = (*done).max(1) as f64;
        let [listing, singles] = [&self.listing, &self.singles].map(|own| own.least() / words);
        Row {
            record: Record {
                name: name.clone(),
                vector_bytes: Some(task.vector_bytes),
                archive: listing,
                copy: None,
                strided: None,
            },
            kind: kind.clone(),
            second: None,
            part: Part::Listings,
            room: Some(singles),
            goal: *goal,
        }
    }
}

/// Lines that are timed in turns.
pub struct Group {
    contests: Vec<Contest>,
}

impl Group {
    /// An error if the archive does not answer one of them as it must.
    pub fn new(lines: Vec<Line>) -> Result<Group, String> {
        let mut contests: Vec<_> = lines.into_iter().map(Contest::new).collect();
        let check = |contest: &mut Contest| contest.called.check();
        contests.iter_mut().try_for_each(check)?;
        Ok(Group { contests })
    }
}

impl Timed for Group {
    fn run(&mut self, turn: Turn) {
        for _ in 0..turn.batches {
            self.contests.iter_mut().for_each(Contest::turn);
        }
    }

    fn rows(&self) -> Vec<Row> {
        self.contests.iter().map(Contest::row).collect()
    }
}
