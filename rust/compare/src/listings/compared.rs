//! All that is made of one listing and compared.

use super::difference::Difference;
use super::ended::{Ended, Runner};
use super::listing::Listing;
use super::rules;
use crate::case::Function;
use crate::difference::Sides;
use second::listing::ListingMistake;
use sme_move::numbers;

/// What is called: as the archive two functions of its own, but for tests,
/// and the second program with its mistake.
#[derive(Clone, Copy)]
pub struct Units {
    pub listing: Runner,
    pub word: Function,
    pub mistake: ListingMistake,
}

impl Units {
    /// The archive, beside the second program with this mistake.
    pub fn archive(mistake: ListingMistake) -> Units {
        Units {
            listing: numbers::run_listing,
            word: numbers::execute,
            mistake,
        }
    }
}

/// Two ends of one listing that differ and must not: the one that is wanted,
/// and the one that is found.
pub struct Differing {
    pub sides: Sides,
    pub wanted: Ended,
    pub found: Ended,
}

impl Differing {
    /// In full, of the listing of this number.
    pub fn told(self, number: u64, listing: Listing) -> String {
        Difference::new(number, listing, self).to_string()
    }
}

/// The ends of one listing. Their room is used again for the next.
pub struct Compared {
    units: Units,
    archive: Ended,
    singles: Ended,
    second: Ended,
}

impl Compared {
    pub fn new(units: Units) -> Compared {
        Compared {
            units,
            archive: Ended::default(),
            singles: Ended::default(),
            second: Ended::default(),
        }
    }

    /// What all came to, after a listing without a difference.
    pub fn agreed(&self) -> &Ended {
        &self.archive
    }

    /// Runs a listing in one call, by single calls and through the second
    /// program, and tells the first difference. Answers before any word are
    /// those of the rules, whatever the other two make of them.
    pub fn differing(&mut self, listing: &Listing) -> Option<Differing> {
        let Compared {
            units,
            archive,
            singles,
            second,
        } = self;
        archive.run_listing(units.listing, listing);
        if let Some(answer) = rules::refusal(listing) {
            singles.refuse(answer, listing);
            if !archive.agrees(singles) {
                return Some(differing(Sides::RULES, singles, archive));
            }
        }
        singles.run_singles(units.word, listing);
        if !archive.agrees(singles) {
            return Some(differing(Sides::SINGLE_CALLS, singles, archive));
        }
        second.run_second(units.mistake, listing);
        let same = archive.agrees(second);
        (!same).then(|| differing(Sides::PROGRAMS, second, archive))
    }
}

fn differing(sides: Sides, wanted: &Ended, found: &Ended) -> Differing {
    Differing {
        sides,
        wanted: wanted.clone(),
        found: found.clone(),
    }
}
