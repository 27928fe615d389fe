//! Random listings, each aimed at one way to end.
//!
//! The state and the words are first made so that nothing stops the run, or
//! one word that is drawn for it. Then the causes that stop a call before any
//! word, or at the first, are put in.

pub mod allowances;
pub mod places;
mod state;
mod words;

use super::listing::{Listing, WORD_BYTES};
use super::rules;
use crate::case::Case;
use crate::generate::causes::Causes;
use crate::generate::{lengths, settings};
use crate::names::FAULT;
use crate::rows::Drawn;
use places::Plan;
use second::inputs::random::Random;
use sme_move::Refusal;
use state::Aimed;
use words::Words;

/// Of so many listings one has bytes at its end that make no word.
const ONE_ODD_IN: usize = 10;
/// Of so many listings that an undecodable first word stops, one is of a
/// level at which no word decodes.
const ONE_LEVEL_0_IN: usize = 4;
/// What a word by itself can be refused for, in the order of the answers.
const OF_WORDS: [Refusal; 3] = [Refusal::Undecodable, Refusal::StackMisaligned, FAULT];

/// Fills `listing` anew. Settings or lengths that are to be wrong can be right
/// by chance, and the run then ends anywhere: such a listing is drawn again.
pub fn generate(random: &mut Random, listing: &mut Listing) {
    loop {
        let causes = Causes::draw(random, Drawn::All);
        draw(random, listing, &causes);
        let wrong = causes.has(Refusal::BadSettings) || causes.has(Refusal::BadLengths);
        if !wrong || rules::state_refusal(&listing.case).is_some() {
            return;
        }
    }
}

/// A listing with these causes.
fn draw(random: &mut Random, listing: &mut Listing, causes: &Causes) {
    let aimed = state::set(random, &mut listing.case, causes);
    let checked = listing.case.settings.stack_check;
    let can_be = |own: &Refusal| checked || *own != Refusal::StackMisaligned;
    let mut of_words = OF_WORDS.into_iter().filter(can_be);
    let aim = of_words.find(|&own| causes.has(own));
    let plan = Plan::draw(random, aim.is_some());
    put_words(random, listing, &aimed, &plan, aim);
    listing.reach = plan.stop.unwrap_or(plan.words);
    if spoil(random, &mut listing.case, &plan, causes) {
        listing.reach = 0;
    }
    listing.allowance = allowances::draw(random, plan.words, listing.reach);
}

/// The words of the plan: done up to the stop, refused there, and then any. A
/// word that is refused as it is aimed may not be there; another takes its
/// place. Sometimes bytes follow that make no word.
fn put_words(
    random: &mut Random,
    listing: &mut Listing,
    aimed: &Aimed,
    plan: &Plan,
    aim: Option<Refusal>,
) {
    let Listing { case, bytes, .. } = listing;
    let mut words = Words { case, aimed };
    bytes.clear();
    for place in 0..plan.words {
        let word = match plan.stop {
            Some(stop) if place > stop => words.any(random),
            Some(stop) if place == stop => words.refused(random, aim),
            _ => words.done(random),
        };
        bytes.extend(word.to_le_bytes());
    }
    if random.chance(1, ONE_ODD_IN) {
        let odd = 1 + random.below(WORD_BYTES - 1);
        bytes.extend((0..odd).map(|_| random.byte()));
    }
}

/// Puts in the causes that are none of a word's own. True if the first word
/// is then refused, whichever it is.
fn spoil(random: &mut Random, case: &mut Case, plan: &Plan, causes: &Causes) -> bool {
    let first = plan.stop == Some(0) && causes.has(Refusal::Undecodable);
    let no_level = first && random.chance(1, ONE_LEVEL_0_IN);
    if no_level {
        case.settings.level = 0;
    }
    case.settings.za_on = !causes.has(Refusal::ZaOff);
    case.settings.streaming = !causes.has(Refusal::StreamingOff);
    if causes.has(Refusal::BadLengths) {
        lengths::spoil(random, case);
    }
    if causes.has(Refusal::BadSettings) {
        settings::spoil(random, case);
    }
    no_level || causes.has(Refusal::ZaOff) || causes.has(Refusal::StreamingOff)
}
