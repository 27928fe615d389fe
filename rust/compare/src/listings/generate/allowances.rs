//! How many words may be run.

use second::inputs::random::Random;

/// How far allowances that are near a large number are from it at most.
pub const NEAR: usize = 1 << 10;

/// An allowance for a listing of so many words, of which so many are done
/// before one is refused: none, one, at the stop and beside it, at the end and
/// above it, near 2^64, or so that its low 32 bits alone would stop the run
/// earlier.
pub fn draw(random: &mut Random, words: usize, reach: usize) -> u64 {
    let [words, reach] = [words, reach].map(|own| own as u64);
    match random.below(16) {
        0 => 0,
        1 => 1,
        2 | 3 => random.below(reach as usize + 1) as u64,
        4 => reach.saturating_sub(1),
        5 => reach,
        6 | 7 => reach + 1,
        8 | 9 => words,
        10 => words + 1,
        11 => words + random.below(NEAR) as u64,
        12 | 13 => u64::MAX - random.below(NEAR) as u64,
        _ => above_32_bits(random, words),
    }
}

/// 2^32, or another number of which 32 bits leave nothing, and less than the
/// words in those 32 bits.
fn above_32_bits(random: &mut Random, words: u64) -> u64 {
    let high = match random.below(3) {
        0 => 1,
        1 => 1 << random.below(32),
        _ => 1 + random.below(u32::MAX as usize) as u64,
    };
    high << 32 | random.below(words.max(1) as usize) as u64
}
