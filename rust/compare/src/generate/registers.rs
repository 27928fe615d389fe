//! The X registers of a case, but for the addresses of loads and stores.

use crate::case::Case;
use second::flat::Flat;
use second::inputs::random::Random;

/// Any register's value: all 64 bits, small, or close to 2^64.
pub fn value(random: &mut Random) -> u64 {
    match random.below(4) {
        0 => random.below(600) as u64,
        1 => (random.below(600) as u64).wrapping_neg(),
        _ => random.bits(),
    }
}

/// Sets the index register: W near 2^32, near the modulus, below it, or
/// any. The upper 32 bits stay random, as they must not matter.
pub fn set_index(random: &mut Random, case: &mut Case, operation: &Flat) {
    let parts = operation.element_bytes.max(operation.vectors).max(1);
    let modulus = case.settings.vector_bytes as u32 / u32::from(parts);
    let offset = u32::from(operation.offset);
    let w = match random.below(5) {
        0 => u32::MAX - random.below(20) as u32,
        1 => (modulus + random.below(5) as u32).saturating_sub(2 + offset),
        2 => random.below(modulus as usize) as u32,
        _ => random.word(),
    };
    let upper = random.bits() << 32;
    case.x[usize::from(operation.index)] = upper | u64::from(w);
}
