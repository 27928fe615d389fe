//! Comparison of listings that are run in one call (request 5) with single
//! calls one after another and with the second program, on all cores.

pub mod arguments;
pub mod compared;
pub mod counts;
mod difference;
pub mod ended;
pub mod generate;
pub mod listing;
pub mod rules;
#[cfg(test)]
mod tests;

use crate::exhaustive::blocks::{Blocks, Draws, Workers};
use crate::seeded::{self, Judged};
use arguments::Arguments;
use compared::{Compared, Units};
use counts::Counts;
use listing::Listing;
use second::inputs::random::Random;

/// Listings in a block.
const BLOCK: u64 = 1000;

/// Compares what is asked for and prints what was found. True if it passes.
pub fn run(arguments: &Arguments) -> bool {
    seeded::run(arguments, |arguments| {
        let units = Units::archive(arguments.mistake);
        compare(&units, arguments.draws, &Workers::on_all_cores())
    })
}

impl Judged for Counts {
    fn check(&self) -> Result<(), String> {
        Counts::check(self)
    }

    fn compared(&self) -> String {
        format!("{} listings, {} words done", self.listings(), self.done())
    }
}

/// Compares all listings; a difference is told with its number among all.
pub fn compare(units: &Units, draws: Draws, workers: &Workers) -> Result<Counts, String> {
    let blocks = Blocks {
        count: draws.count,
        size: BLOCK,
    };
    workers.run("listings", blocks.number(), |block, counts: &mut Counts| {
        let mut random = Random::new(draws.block_seed(block));
        let mut listing = Listing::empty();
        let mut compared = Compared::new(*units);
        for place in blocks.range(block) {
            generate::generate(&mut random, &mut listing);
            match compared.differing(&listing) {
                None => counts.add(&listing, compared.agreed()),
                Some(differing) => return Err(differing.told(place + 1, listing)),
            }
        }
        Ok(())
    })
}
