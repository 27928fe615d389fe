//! The kinds of allowances.

use crate::listings::generate::allowances::NEAR;
use crate::listings::listing::Listing;

const LOW_32_BITS: u64 = u32::MAX as u64;

/// A kind and what is of it. The stop is the first word that is refused, and
/// an allowance may be of several kinds.
pub type Kind = (&'static str, fn(&Listing) -> bool);

pub const KINDS: [Kind; 11] = [
    ("0", |own| own.allowance == 0),
    ("1", |own| own.allowance == 1),
    ("in the middle", |own| {
        own.allowance > 1 && own.allowance < reach(own).saturating_sub(1)
    }),
    ("one before the stop", |own| {
        stops(own) && own.allowance.wrapping_add(1) == reach(own)
    }),
    ("at the stop", |own| {
        stops(own) && own.allowance == reach(own)
    }),
    ("one after the stop", |own| {
        stops(own) && own.allowance == reach(own) + 1
    }),
    ("at the end", |own| own.allowance == words(own)),
    ("one above the end", |own| own.allowance == words(own) + 1),
    ("further above", |own| {
        own.allowance > words(own) + 1 && own.allowance < 1 << 32
    }),
    ("low 32 bits stop it", |own| {
        own.allowance > LOW_32_BITS && own.allowance & LOW_32_BITS < reach(own)
    }),
    ("near 2^64", |own| own.allowance > u64::MAX - NEAR as u64),
];

fn words(listing: &Listing) -> u64 {
    listing.words().len() as u64
}

fn reach(listing: &Listing) -> u64 {
    listing.reach as u64
}

/// Whether a word of the listing is refused.
fn stops(listing: &Listing) -> bool {
    reach(listing) < words(listing)
}
