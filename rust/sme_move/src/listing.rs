//! A listing of words, run in one call.

use crate::answer::Refusal;
use crate::execute::Buffers;
use crate::numbers;
use crate::settings::Settings;
use std::error::Error;
use std::fmt;

/// Runs a listing, of which four bytes are a word, the lowest first: its words one after another, at most as many as
/// the allowance says, up to the first that is refused. Gives how many words were done, where it came to the listing's
/// end or to the allowance; else how many were done before the refused one, and the refusal.
///
/// All is as if each word were executed by a call of its own ([`execute`](crate::execute())), so what the done ones did
/// stays, and the refused one changes nothing. Settings and lengths are checked first, also where there is no word to
/// run: [`Refusal::BadSettings`], [`Refusal::BadLengths`] and then [`Refusal::BadListing`], for bytes that are not
/// whole words, come before every word and change nothing.
///
/// ```
/// use sme_move::{run_listing, Buffers, Refusal, Settings, Stopped};
///
/// let settings = Settings::new(16, 1)?.with_streaming(true).with_za(true);
/// let (mut z, mut za) = ([7; 512], [0; 256]);
/// let mut run = |listing: &[u8], allowance| {
///     let buffers = Buffers { x: &[0; 32], z: &mut z, p: &[0xFF; 32], za: &mut za, memory: &mut [] };
///     run_listing(settings, listing, allowance, buffers)
/// };
/// // Vector register 0 goes to rows 0, 1 and 2 of the tile of 1-byte elements; between these is a word that is none.
/// let listing = [0xC0000000, 0xC0000001, 0, 0xC0000002].map(u32::to_le_bytes).concat();
/// assert_eq!(run(&listing, 1), Ok(1));
/// assert_eq!(run(&listing[..8], u64::MAX), Ok(2));
/// assert_eq!(run(&listing[..7], u64::MAX), Err(Stopped { done: 0, refusal: Refusal::BadListing }));
/// let stopped = run(&listing, u64::MAX).expect_err("the third word is no instruction");
/// assert_eq!(stopped, Stopped { done: 2, refusal: Refusal::Undecodable });
/// // To go on, skip the words that were done and the refused one.
/// assert_eq!(run(&listing[4 * (stopped.done + 1)..], u64::MAX), Ok(1));
/// assert_eq!(za[..48], [7; 48]);
/// # Ok::<(), Refusal>(())
/// ```
#[inline]
pub fn run_listing(
    settings: Settings,
    listing: &[u8],
    allowance: u64,
    buffers: Buffers<'_>,
) -> Result<usize, Stopped> {
    let (number, address, element, words) =
        numbers::run_listing(settings, listing, allowance, buffers);
    let done = words as usize;
    match Refusal::check(number, address, element) {
        Ok(()) => Ok(done),
        Err(refusal) => Err(Stopped { done, refusal }),
    }
}

/// Words as a listing has them.
pub(crate) fn listing_of(words: impl IntoIterator<Item = u32>) -> Vec<u8> {
    let words: Vec<[u8; 4]> = words.into_iter().map(u32::to_le_bytes).collect();
    words.into_flattened()
}

/// Where a run of words ended before its end, and why.
///
/// Where a word was refused, a host goes on behind it by skipping 4 * (done + 1) bytes of the listing. Settings,
/// lengths or a listing that are wrong are refused before every word: then `done` is 0, and there is no word to skip.
#[derive(Clone, Copy, Debug, PartialEq, Eq, Hash)]
pub struct Stopped {
    /// How many words were done: the refused one is the next.
    pub done: usize,
    pub refusal: Refusal,
}

impl fmt::Display for Stopped {
    fn fmt(&self, f: &mut fmt::Formatter<'_>) -> fmt::Result {
        let Stopped { done, refusal } = self;
        match refusal {
            // No word is to blame.
            Refusal::BadSettings | Refusal::BadLengths | Refusal::BadListing => refusal.fmt(f),
            _ => write!(f, "word {}: {refusal}", done + 1),
        }
    }
}

impl Error for Stopped {}

/// For callers that do not ask how far a run came.
impl From<Stopped> for Refusal {
    fn from(stopped: Stopped) -> Refusal {
        stopped.refusal
    }
}
