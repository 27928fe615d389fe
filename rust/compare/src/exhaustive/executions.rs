//! Random states, in blocks that each have their own seed.

use super::blocks::{Blocks, Draws, Sum, Workers};
use crate::arguments::Arguments;
use crate::counts::Counts;
use crate::rows::Drawn;
use crate::run::first_difference;
use second::execute::Mistake;

/// Cases in a block.
const BLOCK: u64 = 10_000;

impl Sum for Counts {
    fn merge(&mut self, other: Counts) {
        Counts::merge(self, other);
    }
}

/// Compares all cases; a difference is told with its number among all.
pub fn compare(draws: Draws, mistake: Mistake, workers: &Workers) -> Result<Counts, String> {
    let blocks = Blocks {
        count: draws.count,
        size: BLOCK,
    };
    workers.run("executions", blocks.number(), |block, sum: &mut Counts| {
        let range = blocks.range(block);
        let arguments = Arguments {
            seed: draws.block_seed(block),
            count: range.end - range.start,
            drawn: Drawn::All,
            mistake,
        };
        match first_difference(&arguments, |case, outcome| sum.add(case, outcome)) {
            None => Ok(()),
            Some(mut difference) => {
                difference.number += range.start;
                Err(difference.to_string())
            }
        }
    })
}
