//! What comes of a listing: in one call of the archive, in single calls, and
//! in the second program.

use super::listing::Listing;
use super::rules;
use crate::case::{archive_settings, Function, Outcome};
use second::listing::{run_with, ListingMistake, Ran};
use sme_move::{Buffers, Settings};

/// The number, the address and the element of an answer, and how many words
/// were done.
pub type Told = (u32, u64, u64, u64);

/// A function that runs a listing, as the binding has it.
pub type Runner = fn(Settings, &[u8], u64, Buffers<'_>) -> Told;

/// How a run ended: the answer that stopped it, with the buffers as it left
/// them, and how many words were done.
#[derive(Clone, Default)]
pub struct Ended {
    pub outcome: Outcome,
    pub done: u64,
}

impl Ended {
    /// Runs the listing in one call.
    pub fn run_listing(&mut self, unit: Runner, listing: &Listing) {
        let Listing {
            case,
            bytes,
            allowance,
            ..
        } = listing;
        self.outcome.copy_buffers(case);
        let settings = archive_settings(&case.settings);
        let call = |buffers: Buffers<'_>| unit(settings, bytes, *allowance, buffers);
        let told = self.outcome.lend(call);
        self.keep(told);
    }

    /// Runs its words by single calls, each on what the last one left, up to
    /// the first that is not done or to the allowance. What no single call can
    /// tell is as the rules say.
    pub fn run_singles(&mut self, unit: Function, listing: &Listing) {
        self.outcome.copy_buffers(&listing.case);
        let settings = archive_settings(&listing.case.settings);
        let by_rules = rules::refusal(listing);
        let unasked = listing.odd() > 0 || listing.allowed().next().is_none();
        let mut told = (by_rules.unwrap_or(0), 0, 0, 0);
        for word in listing.allowed().take_while(|_| !unasked) {
            let call = |buffers: Buffers<'_>| unit(settings, word, buffers);
            let (answer, address, element) = self.outcome.lend(call);
            told = (answer, address, element, told.3 + u64::from(answer == 0));
            if answer != 0 {
                break;
            }
        }
        self.keep(told);
    }

    /// Runs it through the second program.
    pub fn run_second(&mut self, mistake: ListingMistake, listing: &Listing) {
        let Listing {
            case,
            bytes,
            allowance,
            ..
        } = listing;
        self.outcome.copy_buffers(case);
        let buffers = self.outcome.lend_to_second();
        let Ran {
            answer,
            address,
            element,
            done,
        } = run_with(mistake, &case.settings, bytes, *allowance, buffers);
        self.keep((answer, address, element, done));
    }

    /// Refused with this answer before any word.
    pub fn refuse(&mut self, answer: u32, listing: &Listing) {
        self.outcome.copy_buffers(&listing.case);
        self.keep((answer, 0, 0, 0));
    }

    fn keep(&mut self, (answer, address, element, done): Told) {
        let own = &mut self.outcome;
        (own.answer, own.address, own.element) = (answer, address, element);
        self.done = done;
    }

    /// Whether both ended alike and left the same bytes.
    pub fn agrees(&self, other: &Ended) -> bool {
        self.done == other.done && self.outcome.agrees(&other.outcome)
    }
}
