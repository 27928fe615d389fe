//! Every word of a range at every level.

use super::blocks::{Blocks, Sum, Workers};
use super::codec::{Codec, Numbers, Programs};
use super::trip::{self, UNWRITTEN_NUMBERS};
use crate::generate::settings::OTHER_LEVELS;
use sme_move::Settings;
use std::ops::RangeInclusive;

/// How many levels there are.
const LEVELS: usize = Settings::MAX_LEVEL as usize + 1;

/// How many of all words decode at each level, as request 2 says.
pub const DECODING: [u64; LEVELS] = [0, 10_813_440, 10_814_208, 10_835_456];

/// One past the last word.
const ALL: u64 = 1 << 32;

/// Words in a block.
const BLOCK: u64 = 1 << 20;

/// What was compared.
#[derive(Debug, Default, PartialEq, Eq)]
pub struct Words {
    pub words: u64,
    /// How many of the words decode at each level.
    pub decoding: [u64; LEVELS],
    /// How often a word was decoded at a level that is none.
    pub at_other_levels: u64,
}

impl Sum for Words {
    fn merge(&mut self, other: Words) {
        self.words += other.words;
        self.at_other_levels += other.at_other_levels;
        for (own, other) in self.decoding.iter_mut().zip(other.decoding) {
            *own += other;
        }
    }
}

impl Words {
    /// An error if these are all words and not as many decode as must.
    pub fn check(&self) -> Result<(), String> {
        if self.words == ALL && self.decoding != DECODING {
            let found = self.decoding;
            return Err(format!(
                "FAILED: at the levels {found:?} words decode, not {DECODING:?}"
            ));
        }
        Ok(())
    }
}

/// Compares what both programs make of the words.
pub fn compare<A: Codec, S: Codec>(
    programs: &Programs<A, S>,
    range: RangeInclusive<u32>,
    workers: &Workers,
) -> Result<Words, String> {
    let first = u64::from(*range.start());
    let blocks = Blocks {
        count: u64::from(*range.end()) + 1 - first,
        size: BLOCK,
    };
    workers.run("words", blocks.number(), |block, sum: &mut Words| {
        let mut decoding = Decoding::new(programs);
        for at in blocks.range(block) {
            decoding.compare_word((first + at) as u32, sum)?;
        }
        Ok(())
    })
}

/// Both programs, and the places that they decode to. Nearly all words are
/// refused and leave these as they were, so that they are filled only where
/// a call has written them: to do it before each call takes longer than all
/// the rest.
struct Decoding<'a, A, S> {
    programs: &'a Programs<A, S>,
    archive: Numbers,
    second: Numbers,
}

impl<A: Codec, S: Codec> Decoding<'_, A, S> {
    fn new(programs: &Programs<A, S>) -> Decoding<'_, A, S> {
        Decoding {
            programs,
            archive: UNWRITTEN_NUMBERS,
            second: UNWRITTEN_NUMBERS,
        }
    }

    /// One word at all levels, and at what is no level if it decodes or is
    /// of the sample.
    fn compare_word(&mut self, word: u32, sum: &mut Words) -> Result<(), String> {
        sum.words += 1;
        let mut decodes = false;
        for (level, count) in (0..).zip(&mut sum.decoding) {
            decodes = self.decodes(word, level)?;
            *count += u64::from(decodes);
        }
        if decodes || sampled(word) {
            for level in OTHER_LEVELS {
                self.decodes(word, level)?;
                sum.at_other_levels += 1;
            }
        }
        Ok(())
    }

    /// Whether a word decodes, on which both agree.
    fn decodes(&mut self, word: u32, level: u64) -> Result<bool, String> {
        let archive = (self.programs.archive).decode(word, level, &mut self.archive);
        let second = (self.programs.second).decode(word, level, &mut self.second);
        let untouched = self.archive == UNWRITTEN_NUMBERS && self.second == UNWRITTEN_NUMBERS;
        if archive == second && archive != 0 && untouched {
            return Ok(false);
        }
        let archive = trip::decoded(&self.programs.archive, archive, self.archive);
        let second = trip::decoded(&self.programs.second, second, self.second);
        *self = Decoding::new(self.programs);
        if archive == second && archive.right(word) {
            return Ok(true);
        }
        let input = format!("word {word:08X} at level {level}");
        Err(trip::difference(&input, &archive.told(), &second.told()))
    }
}

/// Whether a word is tried at what is no level although it does not decode:
/// one in 1024, spread by a multiplication so that no bit is always the same.
fn sampled(word: u32) -> bool {
    word.wrapping_mul(0x9E37_79B1) < 1 << 22
}
