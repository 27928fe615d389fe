//! One call, made to both programs.

use super::counts::Counts;
use super::difference::Difference;
use super::programs::Keeper;
use super::rules::Verdict;
use super::state::State;
use crate::exhaustive::codec::Programs;
use second::held::Tile;
use std::fmt::{self, Display, Formatter};

/// What is asked of a program.
#[derive(Clone, Copy, Debug, PartialEq, Eq)]
pub enum Call {
    Take { element_bytes: u64 },
    GiveUp { tile: Tile },
}

/// The answer, the number of the tile taken, and what the call leaves.
#[derive(Debug, PartialEq, Eq)]
pub struct Outcome {
    pub answer: u32,
    pub tile: u64,
    pub after: State,
}

impl Call {
    /// Makes the call to one program. Giving up has no tile to tell.
    pub fn make(self, program: &impl Keeper, before: &State) -> Outcome {
        let mut after = before.clone();
        let (tiles, count) = after.array();
        let (answer, tile) = match self {
            Call::Take { element_bytes } => program.take(tiles, count, element_bytes),
            Call::GiveUp { tile } => (program.give_up(tiles, count, tile), 0),
        };
        Outcome {
            answer,
            tile,
            after,
        }
    }

    /// Makes the call to both programs and counts it. They must leave the
    /// same, and give the answer of the rules even where both agree.
    pub fn compare<A: Keeper, S: Keeper>(
        self,
        programs: &Programs<A, S>,
        before: &State,
        counts: &mut Counts,
    ) -> Result<(), Box<Difference>> {
        let archive = self.make(&programs.archive, before);
        let second = self.make(&programs.second, before);
        let verdict = Verdict::of(self, before);
        if archive != second || archive.answer != verdict.answer() {
            return Err(Box::new(Difference {
                call: self,
                before: before.clone(),
                archive,
                second,
                verdict,
            }));
        }
        counts.add(self, verdict);
        Ok(())
    }
}

impl Display for Call {
    fn fmt(&self, f: &mut Formatter) -> fmt::Result {
        match self {
            Call::Take { element_bytes } => write!(f, "taking a tile of size {element_bytes}"),
            Call::GiveUp { tile } => {
                let Tile {
                    element_bytes,
                    number,
                } = tile;
                write!(f, "giving up tile {number} of size {element_bytes}")
            }
        }
    }
}
