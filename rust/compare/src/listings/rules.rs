//! The answers that a call gets before any word is run, by docs/RULES.md
//! (sections 2 and 6) and request 5. They are written out here once more: no
//! single call tells of 9, or of 1 and 2 where no word is run.

use super::listing::Listing;
use crate::case::Case;
use crate::pairs::Pair;
use sme_move::Refusal;

/// Answer 9, which only listings get.
pub const ODD_LENGTH: u32 = Refusal::BadListing.number();

/// The answers that are given before any word is run.
pub const BEFORE_WORDS: [u32; 3] = [BAD_SETTINGS, BAD_LENGTHS, ODD_LENGTH];

const BAD_SETTINGS: u32 = Refusal::BadSettings.number();
const BAD_LENGTHS: u32 = Refusal::BadLengths.number();
const HIGHEST_LEVEL: u64 = sme_move::Settings::MAX_LEVEL;
/// One past the last address.
const ADDRESSES: u128 = 1 << 64;

/// The answer before any word is run, if there is one: 1, 2 and 9, in this
/// order, whatever words there are and however many are allowed.
pub fn refusal(listing: &Listing) -> Option<u32> {
    let of_listing = (listing.odd() > 0).then_some(ODD_LENGTH);
    state_refusal(&listing.case).or(of_listing)
}

/// The same for what is wrong with the state alone.
pub fn state_refusal(case: &Case) -> Option<u32> {
    if !settings_allowed(case) {
        Some(BAD_SETTINGS)
    } else if !lengths_fit(case) {
        Some(BAD_LENGTHS)
    } else {
        None
    }
}

fn settings_allowed(case: &Case) -> bool {
    Pair::number(&case.settings).is_some() && case.settings.level <= HIGHEST_LEVEL
}

/// Whether buffers have the lengths that the largest vector length, one of
/// the five, fixes, and memory ends at 2^64 or before.
fn lengths_fit(case: &Case) -> bool {
    let largest = case.settings.largest_vector_bytes as usize;
    let memory_end = u128::from(case.settings.memory_address) + case.memory.len() as u128;
    case.x.len() == 32
        && case.z.len() == 32 * largest
        && case.p.len() == 2 * largest
        && case.za.len() == largest * largest
        && memory_end <= ADDRESSES
}
