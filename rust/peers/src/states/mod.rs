//! The unit's execution held to QEMU's user mode on random states.

pub mod faults;
mod generate;
pub mod judge;
pub mod machine;
mod rules;
mod tally;
#[cfg(test)]
mod tests;
mod told;

pub use machine::{Abilities, Emulator};
pub use tally::Tally;

use compare::case::{Case, Outcome};
use compare::exhaustive::blocks::{Blocks, Draws, Workers};
use judge::{judge, Verdict};
use machine::Machine;
use second::execute::Mistake;
use second::inputs::random::Random;

/// Cases in a block.
const BLOCK: u64 = 500;

/// What executes words: the archive, or the second program with a mistake that
/// must be noticed.
#[derive(Clone, Copy, Debug, PartialEq, Eq)]
pub enum Unit {
    Archive,
    Wrong(Mistake),
}

impl Unit {
    pub fn execute(self, case: &Case, outcome: &mut Outcome) {
        match self {
            Unit::Archive => outcome.run_archive(case),
            Unit::Wrong(mistake) => outcome.run_second(case, mistake),
        }
    }
}

/// What to compare.
pub struct Plan<'a> {
    pub emulator: &'a Emulator,
    pub unit: Unit,
    pub draws: Draws,
    /// The number of the only case to compare, the first being 1.
    pub only: Option<u64>,
}

impl Plan<'_> {
    /// What the machine can do.
    pub fn abilities(&self) -> Result<Abilities, String> {
        Ok(Machine::start(self.emulator)?.abilities)
    }

    /// Compares all cases. The first difference ends it, and is told with its
    /// number among all.
    pub fn compare(&self, workers: &Workers) -> Result<Tally, String> {
        let blocks = Blocks {
            count: self.draws.count,
            size: BLOCK,
        };
        let only = self.only.map(|number| (number - 1) / BLOCK);
        workers.run("states", blocks.number(), |block, tally: &mut Tally| {
            if only.is_some_and(|only| only != block) {
                return Ok(());
            }
            let mut random = Random::new(self.draws.block_seed(block));
            let mut case = Case::empty();
            for at in blocks.range(block) {
                let machine = tally.machine(self.emulator)?;
                generate::generate(&mut random, &mut case, machine.abilities);
                if self.only.is_none_or(|only| only == at + 1) {
                    self.compare_case(at + 1, &case, tally)?;
                }
            }
            Ok(())
        })
    }

    fn compare_case(&self, number: u64, case: &Case, tally: &mut Tally) -> Result<(), String> {
        let mut own = Outcome::default();
        self.unit.execute(case, &mut own);
        let reply = tally.machine(self.emulator)?.execute(case);
        let verdict = judge(case, self.unit, &own, &reply);
        if verdict == Verdict::Differ {
            let seed = self.draws.seed;
            let told = told::difference(case, &own, &reply);
            return Err(format!(
                "DIFFERENCE in state {number}; again with --states-only --seed 0x{seed:X} --only {number}\n{told}"
            ));
        }
        tally.add(case, &own, &reply, &verdict);
        Ok(())
    }
}
