//! Running a listing: the words of a string of bytes, one after another, in
//! one call (request 5).
//!
//! What a word does is not known here. The call as a whole is checked, and
//! then each word is executed by a call of its own: a run is equal to single
//! calls because it is made of them.

mod mistake;

pub use mistake::ListingMistake;

use crate::execute::{checks, execute, Buffers, Mistake, Settings};
use crate::refusal::Refusal;

/// The bytes of a word in a listing.
const WORD_BYTES: usize = 4;

/// What a call gives back.
#[derive(Clone, Copy, Debug, PartialEq, Eq)]
pub struct Ran {
    /// The answer that stopped the run: 0 at the end of the listing or at the
    /// allowance.
    pub answer: u32,
    /// The address and the element that go with the answer: both are 0 with
    /// every one but 7 (request 6).
    pub address: u64,
    pub element: u64,
    /// How many words were done.
    pub done: u64,
}

impl Ran {
    /// A call that was refused before any word ran.
    fn refused(refusal: Refusal) -> Ran {
        Ran {
            answer: u32::from(refusal.number()),
            address: refusal.address(),
            element: refusal.element(),
            done: 0,
        }
    }
}

/// Runs the words of `listing` in their order, at most `allowance` of them,
/// and stops at the first that is not done. The words done before it keep
/// their effect, and it has none itself; answers 1, 2 and 9 are given before
/// any word runs.
pub fn run(settings: &Settings, listing: &[u8], allowance: u64, buffers: Buffers) -> Ran {
    run_with(ListingMistake::None, settings, listing, allowance, buffers)
}

/// Runs a listing with one deliberate mistake, so that a comparison can show
/// that it would notice it. Without one, what is called here is `check` and
/// `run_words` below, and what ran is told as it is.
pub fn run_with(
    mistake: ListingMistake,
    settings: &Settings,
    listing: &[u8],
    allowance: u64,
    mut buffers: Buffers,
) -> Ran {
    if let Err(refusal) = mistake.check(settings, listing, allowance, &buffers) {
        return Ran::refused(refusal);
    }
    let words = allowed_words(mistake, listing, allowance);
    let ran = mistake.run_words(settings, &words, &mut buffers);
    mistake.told(ran, &words, listing, allowance)
}

/// Answers 1, 2 and 9, in this order. No word is needed for them, so they are
/// given for an empty listing and for an allowance of 0 too.
fn check(settings: &Settings, listing: &[u8], buffers: &Buffers) -> Result<(), Refusal> {
    check_settings_and_lengths(settings, buffers)?;
    check_listing(listing)
}

/// Answers 1 and 2, as execution gives them.
fn check_settings_and_lengths(settings: &Settings, buffers: &Buffers) -> Result<(), Refusal> {
    checks::settings(Mistake::None, settings)?;
    checks::lengths(Mistake::None, settings, buffers)
}

/// Answer 9.
fn check_listing(listing: &[u8]) -> Result<(), Refusal> {
    if listing.len().is_multiple_of(WORD_BYTES) {
        Ok(())
    } else {
        Err(Refusal::ListingLength)
    }
}

/// The words that the call may run: the first ones of the listing, at most as
/// many as the caller allows. Only mistakes come here with bytes left at the
/// end that make no word; they are not looked at.
fn allowed_words(mistake: ListingMistake, listing: &[u8], allowance: u64) -> Vec<u32> {
    let (words, _) = listing.as_chunks::<WORD_BYTES>();
    // An allowance may be too large for a length, the smaller of the two
    // numbers never is.
    let allowed = mistake.allowance_seen(allowance).min(words.len() as u64);
    let words = words.iter().take(allowed as usize);
    words.map(|&bytes| word_of(mistake, bytes)).collect()
}

/// The word that four bytes of a listing are, the lowest byte first.
fn word_of(mistake: ListingMistake, bytes: [u8; WORD_BYTES]) -> u32 {
    match mistake {
        ListingMistake::HighestByteFirst => u32::from_be_bytes(bytes),
        _ => u32::from_le_bytes(bytes),
    }
}

/// Executes the words one after another, up to the first that is not done.
fn run_words(settings: &Settings, words: &[u32], buffers: &mut Buffers) -> Ran {
    let mut done = 0;
    for &word in words {
        let (answer, address, element) = execute(
            settings,
            word,
            buffers.x,
            buffers.z,
            buffers.p,
            buffers.za,
            buffers.memory,
        );
        if answer != 0 {
            return Ran {
                answer,
                address,
                element,
                done,
            };
        }
        done += 1;
    }
    Ran {
        answer: 0,
        address: 0,
        element: 0,
        done,
    }
}
