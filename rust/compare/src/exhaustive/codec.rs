//! The two programs as the comparison sees them: decoding and encoding with
//! answers as numbers and results in places that are there before the call.

use second::decode::decode;
use second::encode::encode;
use second::flat::{Flat, LENGTH};
use second::refusal::Refusal;
use sme_move::numbers;

/// An operation as eleven numbers.
pub type Numbers = [u8; LENGTH];

/// A program that decodes and encodes. Tests have wrong ones.
pub trait Codec: Sync {
    /// Decodes a word: 0 with the numbers written, or a refusal with them as
    /// they were.
    fn decode(&self, word: u32, level: u64, fields: &mut Numbers) -> u32;

    /// Encodes eleven numbers: 0 with the word written, or a refusal with 0
    /// written.
    fn encode(&self, fields: &Numbers, word: &mut u32) -> u32;
}

/// The proved archive, through the binding.
pub struct Archive;

/// The second program.
pub struct Second;

impl Codec for Archive {
    fn decode(&self, word: u32, level: u64, fields: &mut Numbers) -> u32 {
        numbers::decode(word, level, fields)
    }

    fn encode(&self, fields: &Numbers, word: &mut u32) -> u32 {
        numbers::encode(fields, word)
    }
}

impl Codec for Second {
    /// Its level is a byte: one that does not fit becomes the highest byte,
    /// which is no level either.
    fn decode(&self, word: u32, level: u64, fields: &mut Numbers) -> u32 {
        let level = u8::try_from(level).unwrap_or(u8::MAX);
        answer(decode(word, level).map(|own| *fields = own.to_bytes()))
    }

    fn encode(&self, fields: &Numbers, word: &mut u32) -> u32 {
        let encoded = encode(&Flat::from_bytes(*fields));
        *word = encoded.unwrap_or(0);
        answer(encoded.map(|_| ()))
    }
}

fn answer(result: Result<(), Refusal>) -> u32 {
    result.map_or_else(|refusal| u32::from(refusal.number()), |()| 0)
}

/// The two that are compared.
pub struct Programs<A, S> {
    pub archive: A,
    pub second: S,
}

impl Programs<Archive, Second> {
    pub const REAL: Programs<Archive, Second> = Programs {
        archive: Archive,
        second: Second,
    };
}
