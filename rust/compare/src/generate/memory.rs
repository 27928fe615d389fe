//! Where memory stands and how long it is.

use crate::case::Case;
use crate::names::{is_access, Named};
use second::flat::Flat;
use second::inputs::random::Random;

/// Of so many loads and stores one has long memory, and of so many other
/// words. Filling, copying and comparing it takes longer than all else, so
/// it cannot be many.
const ONE_ACCESS_IN: usize = 12;
const ONE_MOVE_IN: usize = 256;
/// Long memory has from 2^10 bytes to 2^20. Each of three parts has the same
/// share: those up to 2^12, up to 2^16 and up to 2^20.
const POWERS: [(usize, usize); 3] = [(10, 12), (12, 16), (16, 20)];
/// Lengths of long memory, and numbers of bytes in it, beside which a unit
/// that counts in too few bits would go wrong.
pub const BORDERS: [usize; 2] = [1 << 12, 1 << 16];

/// A length: mostly a short one, sometimes a long one.
pub fn length(random: &mut Random, vector_bytes: usize, operation: &Flat) -> usize {
    let one_in = if is_access(operation.kind()) {
        ONE_ACCESS_IN
    } else {
        ONE_MOVE_IN
    };
    if random.chance(1, one_in) {
        long(random)
    } else {
        short(random, vector_bytes, usize::from(operation.element_bytes))
    }
}

/// A length, often about one vector, sometimes about one element or none at
/// all.
fn short(random: &mut Random, vector_bytes: usize, element_bytes: usize) -> usize {
    match random.below(14) {
        0 => 0,
        1 => 1,
        2 => vector_bytes - 1,
        3 => vector_bytes,
        4 => vector_bytes + 1,
        5 => 2 * vector_bytes,
        6 | 7 => random.below(2 * element_bytes + 2),
        _ => random.below(3 * vector_bytes + 16),
    }
}

/// A length of long memory: one between two powers of two, or one beside a
/// border.
fn long(random: &mut Random) -> usize {
    if random.chance(1, 8) {
        return random.pick(&BORDERS) - 1 + random.below(3);
    }
    let (least, end) = random.pick(&POWERS);
    let power = 1 << (least + random.below(end - least));
    power + random.below(power + 1)
}

/// An address for that length, so that memory ends at 2^64 or before. The
/// ends of the range have a large share.
pub fn address(random: &mut Random, length: usize) -> u64 {
    let length = length as u64;
    // The highest address that leaves room: 2^64 - length, but for empty
    // memory the last one that there is.
    let highest = length.wrapping_neg().wrapping_sub(u64::from(length == 0));
    match random.below(10) {
        0 | 1 => 0,
        2 => random.below(600) as u64,
        3 | 4 => highest,
        5 => highest - 1,
        6 => highest - random.below(600) as u64,
        7 => (1 << 63) - random.below(600) as u64,
        8 => (1 << 32) - random.below(600) as u64,
        _ => random.bits() % highest,
    }
}

/// Makes memory end beyond 2^64, mostly just beyond. One byte cannot: its
/// address would be 2^64. Long memory has a larger share than elsewhere.
pub fn spoil(random: &mut Random, case: &mut Case) {
    if random.chance(1, 8) {
        case.memory.resize(long(random), 0xA5);
    } else if case.memory.len() < 2 {
        case.memory.resize(2 + random.below(64), 0xA5);
    }
    let over = if random.chance(1, 2) {
        1
    } else {
        1 + random.below(case.memory.len() - 1)
    };
    let below_top = (case.memory.len() - over) as u64;
    case.settings.memory_address = below_top.wrapping_neg();
}
