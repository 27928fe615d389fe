//! The state that a listing is run on. Words do not change X, P or the
//! settings, so that it is made for all of them at once.

use crate::case::Case;
use crate::generate::causes::Causes;
use crate::generate::settings;
use crate::generate::{fill_memory, fill_registers, memory, predicates, registers};
use crate::pairs::Pair;
use crate::tiles::random::shuffle;
use second::flat::{self, Flat};
use second::inputs::random::Random;
use sme_move::{Refusal, Settings};
use std::ops::Range;

/// The registers that can be the index of a word (document 01, section 4).
const INDICES: Range<u8> = 8..16;
/// The predicate registers that can govern one.
const GOVERNING: Range<u8> = 0..8;
/// The bytes that elements can have.
const SIZES: [u8; 5] = [1, 2, 4, 8, 16];
const STACK_POINTER: usize = 31;
/// From this largest vector length on, copying and comparing ZA takes longer
/// than running most listings: only every second such pair is kept.
const LARGE: u64 = 128;

/// The registers that are aimed into memory, as fields of a word have them.
pub struct Aimed {
    /// That hold an address in memory, often with room for a vector.
    pub bases: [u32; 5],
    /// That hold a number which leaves the address in memory, or near it.
    pub offsets: [u32; 4],
}

/// A state in which nothing is wrong yet. Where a misaligned stack pointer is
/// to be a cause it is misaligned, and often elsewhere.
pub fn set(random: &mut Random, case: &mut Case, causes: &Causes) -> Aimed {
    let pair = draw_pair(random);
    let highest = Settings::MAX_LEVEL;
    let level = random.pick(&[1, 2, highest, highest, highest]);
    settings::set_to(random, case, pair, level);
    fill_registers(random, case);
    let length = memory_length(random, pair.vector_bytes as usize);
    fill_memory(random, case, length);
    for predicate in GOVERNING {
        let element_bytes = random.pick(&SIZES);
        let governed = Flat {
            predicate,
            element_bytes,
            ..Flat::default()
        };
        predicates::set(random, case, &governed);
    }
    for index in INDICES {
        let indexed = Flat {
            index,
            element_bytes: random.pick(&SIZES),
            ..Flat::default()
        };
        registers::set_index(random, case, &indexed);
    }
    let misaligned = causes.has(Refusal::StackMisaligned) || random.chance(1, 3);
    aim(random, case, misaligned)
}

fn draw_pair(random: &mut Random) -> Pair {
    loop {
        let pair = Pair::draw(random);
        if pair.largest < LARGE || random.chance(1, 2) {
            return pair;
        }
    }
}

/// Mostly room for one to four vectors, so that loads and stores are done;
/// sometimes as single calls have it, which is short, long or nothing.
fn memory_length(random: &mut Random, vector_bytes: usize) -> usize {
    if random.chance(3, 4) {
        return vector_bytes + random.below(3 * vector_bytes);
    }
    let load = Flat {
        kind: flat::LOAD,
        element_bytes: random.pick(&SIZES),
        ..Flat::default()
    };
    memory::length(random, vector_bytes, &load)
}

/// Gives some registers that are no index addresses in memory, and others
/// small numbers to be added. The stack pointer is one of the former, register
/// 31 as an offset, which reads as zero, one of the latter.
fn aim(random: &mut Random, case: &mut Case, misaligned: bool) -> Aimed {
    let is_index = |number: &u32| INDICES.contains(&(*number as u8));
    let mut numbers: Vec<u32> = (0..31).filter(|number| !is_index(number)).collect();
    shuffle(random, &mut numbers);
    let last = STACK_POINTER as u32;
    let aimed = Aimed {
        bases: [numbers[0], numbers[1], numbers[2], numbers[3], last],
        offsets: [numbers[4], numbers[5], numbers[6], last],
    };
    for &base in &aimed.bases {
        case.x[base as usize] = address(random, case);
    }
    for &offset in &aimed.offsets[..3] {
        case.x[offset as usize] = small(random);
    }
    let stack_pointer = &mut case.x[STACK_POINTER];
    *stack_pointer = if misaligned {
        (*stack_pointer & !15) + 1 + random.below(15) as u64
    } else {
        stack_pointer.wrapping_add(15) & !15
    };
    aimed
}

/// An address in memory: with room for a vector behind it if there is, at
/// memory's start or so that the vector ends where memory does, or anywhere.
fn address(random: &mut Random, case: &Case) -> u64 {
    let length = case.memory.len();
    let room = length.saturating_sub(case.settings.vector_bytes as usize);
    let place = match random.below(4) {
        0 => 0,
        1 => room,
        2 => random.below(room + 1),
        _ => random.below(length + 1),
    };
    case.settings.memory_address.wrapping_add(place as u64)
}

/// Nothing, a little, or so much that nothing is left of it modulo 2^64 where
/// elements are large.
fn small(random: &mut Random) -> u64 {
    match random.below(4) {
        0 => 0,
        1 => random.below(4) as u64,
        2 => (random.below(4) as u64).wrapping_neg(),
        _ => (random.below(16) as u64) << 60,
    }
}
