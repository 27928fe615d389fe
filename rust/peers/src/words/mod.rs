//! The unit's decoding held to LLVM's disassembler: which words are
//! instructions of the unit at each level, and each of their eleven numbers.

mod listing;
mod mistake;
#[cfg(test)]
mod tests;
pub mod text;

pub use listing::Disassembler;
pub use mistake::WordMistake;

use compare::exhaustive::blocks::{Sum, Workers};
use compare::exhaustive::words::DECODING;
use sme_move::{decode_fields, Fields};
use std::fmt::{self, Display, Formatter};
use text::{read, Reading};

/// Every word of the unit has one of these top bytes.
const TOP_BYTES: [u32; 3] = [0xC0, 0xE0, 0xE1];
/// The levels that have words.
const LEVELS: [u64; 3] = [1, 2, 3];
/// Words in a block.
const BLOCK: u32 = 1 << 20;
/// Words of a top byte.
const OF_TOP_BYTE: u32 = 1 << 24;

/// What decodes words: the archive, or a wrong one that must be noticed.
pub type Decoder = fn(u32, u64) -> Option<Fields>;

/// The archive.
pub fn archive(word: u32, level: u64) -> Option<Fields> {
    decode_fields(word, level).ok()
}

/// Words that follow each other, at a level.
#[derive(Clone, Copy, Debug, PartialEq, Eq)]
pub struct Block {
    pub level: u64,
    pub first: u32,
    pub last: u32,
}

/// Every word of the three top bytes at each level.
pub fn every_block() -> Vec<Block> {
    let firsts = |&top: &u32| {
        let first = top << 24;
        (first..=first + (OF_TOP_BYTE - 1)).step_by(BLOCK as usize)
    };
    let of_level = |level: u64| {
        let all = TOP_BYTES.iter().flat_map(firsts);
        all.map(move |first| Block::from(level, first))
    };
    LEVELS.into_iter().flat_map(of_level).collect()
}

impl Block {
    fn from(level: u64, first: u32) -> Block {
        let last = first + (BLOCK - 1);
        Block { level, first, last }
    }
}

/// What was compared at a level.
#[derive(Clone, Copy, Debug, Default, PartialEq, Eq)]
pub struct Count {
    pub words: u64,
    /// Instructions of the unit, to both.
    pub ours: u64,
    /// Other instructions, to the peer.
    pub others: u64,
}

/// What was compared at all levels, by level.
#[derive(Debug, Default, PartialEq, Eq)]
pub struct Found {
    counts: [Count; DECODING.len()],
}

impl Sum for Found {
    fn merge(&mut self, other: Found) {
        for (own, other) in self.counts.iter_mut().zip(other.counts) {
            own.words += other.words;
            own.ours += other.ours;
            own.others += other.others;
        }
    }
}

impl Found {
    /// An error if not as many words decode as docs/RULES.md says, after all
    /// blocks.
    pub fn check(&self) -> Result<(), String> {
        let all = TOP_BYTES.len() as u64 * u64::from(OF_TOP_BYTE);
        for level in LEVELS.map(|level| level as usize) {
            let Count { words, ours, .. } = self.counts[level];
            if words != all || ours != DECODING[level] {
                let expected = DECODING[level];
                return Err(format!(
                    "FAILED: of {words} words (not {all}) {ours} decode at level {level}, not {expected}"
                ));
            }
        }
        Ok(())
    }

    /// Words times levels.
    pub fn decodings(&self) -> u64 {
        self.counts.iter().map(|count| count.words).sum()
    }
}

impl Display for Found {
    fn fmt(&self, f: &mut Formatter) -> fmt::Result {
        for level in LEVELS {
            let Count {
                words,
                ours,
                others,
            } = self.counts[level as usize];
            writeln!(
                f,
                "level {level}: {words} words, {ours} decode alike, {others} are other instructions to LLVM"
            )?;
        }
        Ok(())
    }
}

/// Compares the words of all blocks. The first difference ends it.
pub fn compare(
    peer: &Disassembler,
    unit: Decoder,
    blocks: &[Block],
    workers: &Workers,
) -> Result<Found, String> {
    workers.run("words", blocks.len() as u64, |number, sum: &mut Found| {
        compare_block(peer, unit, &blocks[number as usize], sum)
    })
}

fn compare_block(
    peer: &Disassembler,
    unit: Decoder,
    block: &Block,
    sum: &mut Found,
) -> Result<(), String> {
    let mut listing = peer.list(block)?;
    let count = &mut sum.counts[block.level as usize];
    for word in block.first..=block.last {
        let text = listing.take(word)?;
        let own = unit(word, block.level);
        count.add(own, text.as_deref()).map_err(|told| {
            format!(
                "DIFFERENCE: word {word:08X} at level {}\n{told}",
                block.level
            )
        })?;
    }
    listing.finish()
}

impl Count {
    /// Counts a word that both see alike; an error with what each says if
    /// they do not.
    pub fn add(&mut self, own: Option<Fields>, text: Option<&str>) -> Result<(), String> {
        self.words += 1;
        match (own, text.map(read)) {
            (Some(own), Some(Reading::Ours(peer))) if own == peer => self.ours += 1,
            (None, Some(Reading::Other)) => self.others += 1,
            (None, None) => (),
            (own, peer) => {
                let text = text.unwrap_or("no instruction");
                return Err(format!(
                    "  unit: {own:?}\n  LLVM: {text}\n  read as {peer:?}"
                ));
            }
        }
        Ok(())
    }
}
