//! A listing, and the state that it is run on.

use crate::case::Case;

/// The bytes of a word in a listing (request 5).
pub const WORD_BYTES: usize = 4;

/// A state, a listing and how many of its words may be run. The buffers are
/// used again for the next listing.
pub struct Listing {
    /// The state. Its word is none of the call's: whoever draws words, or
    /// tells of one, has it there.
    pub case: Case,
    pub bytes: Vec<u8>,
    pub allowance: u64,
    /// How many words are done where settings, lengths and allowance stop
    /// none: the place of the first that is refused, or the number of words.
    /// No word changes X, P or the settings, so whoever draws the words knows.
    pub reach: usize,
}

impl Listing {
    /// No words, to be filled by the generator.
    pub fn empty() -> Listing {
        Listing {
            case: Case::empty(),
            bytes: Vec::new(),
            allowance: 0,
            reach: 0,
        }
    }

    /// The words, the lowest byte first. Odd bytes at the end make none.
    pub fn words(&self) -> impl ExactSizeIterator<Item = u32> + '_ {
        let (words, _) = self.bytes.as_chunks::<WORD_BYTES>();
        words.iter().map(|bytes| u32::from_le_bytes(*bytes))
    }

    /// How many bytes at the end make no word.
    pub fn odd(&self) -> usize {
        self.bytes.len() % WORD_BYTES
    }

    /// The words that may be run: the allowance may be too large for a place.
    pub fn allowed(&self) -> impl Iterator<Item = u32> + '_ {
        let words = self.words();
        let allowed = self.allowance.min(words.len() as u64);
        words.take(allowed as usize)
    }
}
