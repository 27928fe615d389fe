//! What the listings of a run were, and whether any that must occur is
//! missing.

mod allowances;
mod grid;
mod stops;

use super::ended::Ended;
use super::generate::places::{part, PLACES};
use super::listing::Listing;
use crate::counts::no_complaints;
use crate::exhaustive::blocks::Sum;
use crate::names::FAULT;
use crate::pairs::{Pair, PAIRS};
use crate::rows::{encoding, NO_ENCODING};
use crate::table::NAMES;
use grid::Grid;
use std::fmt::{self, Display, Formatter};
use stops::{Stop, STOPS};

/// Below this many listings, a cell may be empty by chance.
pub const ENOUGH: u64 = 20_000;
/// The answers before any word, as columns.
const BEFORE: [&str; 3] = ["1", "2", "9"];
/// The lengths of a listing, modulo 4, that give 9.
const ODD: [&str; 3] = ["1", "2", "3"];
/// How a listing has no word to run.
const NO_WORD: [&str; 3] = ["empty listing", "allowance 0", "both"];
/// The columns of the lines by pair.
const BY_PAIR: [&str; 3] = ["check on", "off", "words"];

/// Counts of the listings on which all agree.
#[derive(Debug, PartialEq, Eq)]
pub struct Counts {
    listings: u64,
    /// By what stopped the run, and by the place of the stop.
    stops: Grid,
    /// Answer 7 by its element and its place.
    faults: Grid,
    /// By kind, refused before any word or not.
    allowances: Grid,
    /// By the odd bytes and the answer.
    odd: Grid,
    /// By how there is no word to run, and the answer.
    no_word: Grid,
    /// Words done by encoding.
    encodings: Grid,
    /// Listings by pair of vector lengths and stack check, and words done.
    pairs: Grid,
    strange: Vec<String>,
}

impl Default for Counts {
    fn default() -> Counts {
        let places = PLACES.map(|(name, _)| name);
        let stops = STOPS.map(Stop::name);
        Counts {
            listings: 0,
            stops: Grid::new("stop", stops, &places)
                .only(|stop, place| place == 0 || STOPS[stop].can_come_later()),
            faults: Grid::new("element of 7", ["0", "above 0"], &places),
            allowances: Grid::new(
                "allowance",
                allowances::KINDS.map(|(name, _)| name),
                &["run", "1, 2, 9"],
            ),
            odd: Grid::new("length modulo 4", ODD, &BEFORE),
            no_word: Grid::new("no word to run", NO_WORD, &["0", "1", "2", "9"])
                .only(|line, answer| line == 1 || answer < 3),
            encodings: Grid::new("encoding", &NAMES[..NO_ENCODING], &["words"]),
            pairs: Grid::new("stack check", PAIRS, &BY_PAIR),
            strange: Vec::new(),
        }
    }
}

impl Counts {
    /// Counts one listing.
    pub fn add(&mut self, listing: &Listing, ended: &Ended) {
        self.listings += 1;
        let stop = Stop::of(listing, ended).and_then(|stop| Some((stop, stop.number()?)));
        let Some((stop, number)) = stop else {
            self.strange.push(format!(
                "answer {} after {} words, allowance {}",
                ended.outcome.answer, ended.done, listing.allowance
            ));
            return;
        };
        self.stops.add(number, part(ended.done), 1);
        if stop == Stop::Refusal(FAULT.number()) {
            let line = usize::from(ended.outcome.element > 0);
            self.faults.add(line, part(ended.done), 1);
        }
        self.add_allowance(listing, stop);
        if let (1.., Some(answer)) = (listing.odd(), stop.before_words()) {
            self.odd.add(listing.odd() - 1, answer, 1);
        }
        self.add_without_words(listing, stop);
        self.add_words(listing, ended);
    }

    fn add_allowance(&mut self, listing: &Listing, stop: Stop) {
        let column = usize::from(stop.before_words().is_some());
        for (line, (_, is_of_kind)) in allowances::KINDS.iter().enumerate() {
            self.allowances
                .add(line, column, is_of_kind(listing).into());
        }
    }

    /// Counts the listing if it has no word to run.
    fn add_without_words(&mut self, listing: &Listing, stop: Stop) {
        let line = match (listing.bytes.is_empty(), listing.allowance == 0) {
            (true, false) => 0,
            (false, true) => 1,
            (true, true) => 2,
            (false, false) => return,
        };
        let answer = stop.before_words().map_or(0, |place| 1 + place);
        self.no_word.add(line, answer, 1);
    }

    /// Counts the words done, and the listing by its pair if it has one.
    fn add_words(&mut self, listing: &Listing, ended: &Ended) {
        for word in listing.words().take(ended.done as usize) {
            match encoding(word) {
                Some(row) => self.encodings.add(row, 0, 1),
                None => self.strange.push(format!("word {word:08X} is done")),
            }
        }
        let settings = &listing.case.settings;
        if let Some(pair) = Pair::number(settings) {
            let position = usize::from(!settings.stack_check);
            self.pairs.add(pair, position, 1);
            self.pairs.add(pair, 2, ended.done);
        }
    }

    /// How many listings there were.
    pub fn listings(&self) -> u64 {
        self.listings
    }

    /// How many words were done.
    pub fn done(&self) -> u64 {
        self.encodings.total(0)
    }

    /// An error, a line for each, if a cell that can occur is empty or one
    /// that cannot is not.
    pub fn check(&self) -> Result<(), String> {
        let of_grid = if self.listings >= ENOUGH {
            Grid::wrong
        } else {
            Grid::impossible
        };
        let mut complaints = self.strange.clone();
        complaints.extend(self.grids().into_iter().flat_map(of_grid));
        no_complaints(&complaints)
    }

    fn grids(&self) -> [&Grid; 7] {
        [
            &self.stops,
            &self.faults,
            &self.allowances,
            &self.odd,
            &self.no_word,
            &self.encodings,
            &self.pairs,
        ]
    }
}

impl Sum for Counts {
    /// What is strange is sorted, so that the order in which threads come to
    /// an end does not show.
    fn merge(&mut self, other: Counts) {
        self.listings += other.listings;
        let grids = [
            (&mut self.stops, other.stops),
            (&mut self.faults, other.faults),
            (&mut self.allowances, other.allowances),
            (&mut self.odd, other.odd),
            (&mut self.no_word, other.no_word),
            (&mut self.encodings, other.encodings),
            (&mut self.pairs, other.pairs),
        ];
        for (own, other) in grids {
            own.merge(&other);
        }
        self.strange.extend(other.strange);
        self.strange.sort();
    }
}

impl Display for Counts {
    fn fmt(&self, f: &mut Formatter) -> fmt::Result {
        self.grids().iter().try_for_each(|grid| write!(f, "{grid}"))
    }
}
