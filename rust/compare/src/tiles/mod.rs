//! Comparison of taking a tile and giving one up (request 9): from every set
//! of tiles that can be held, and from random arrays that are mostly bad, on
//! all cores.

pub mod arguments;
pub mod call;
pub mod counts;
mod difference;
pub mod every_set;
pub mod programs;
pub mod random;
pub mod rules;
pub mod sets;
pub mod state;
#[cfg(test)]
mod tests;

use crate::exhaustive::blocks::{Sum, Workers};
use crate::exhaustive::codec::Programs;
use crate::seeded::{self, Judged};
use arguments::Arguments;
use counts::Counts;
use programs::{Archive, Second};

/// Compares what is asked for and prints what was found. True if it passes.
pub fn run(arguments: &Arguments) -> bool {
    seeded::run(arguments, compare)
}

impl Judged for Counts {
    fn check(&self) -> Result<(), String> {
        Counts::check(self)
    }

    fn compared(&self) -> String {
        format!("{} calls", self.calls())
    }
}

/// Random arrays come first, since they are few and show every mistake.
fn compare(arguments: &Arguments) -> Result<Counts, String> {
    let Arguments { draws, mistake } = *arguments;
    let programs = Programs {
        archive: Archive,
        second: Second { mistake },
    };
    let sets = sets::list();
    let workers = Workers::on_all_cores();
    let mut counts = random::compare(&programs, &sets, draws, &workers)?;
    counts.merge(every_set::compare(&programs, &sets, draws.seed, &workers)?);
    Ok(counts)
}
