//! Words and states for the tests of buffers that are laid out for longer
//! vectors (request 12).

use super::machine::Machine;
use crate::decode::decode;
use crate::execute::VECTOR_LENGTHS;
use crate::inputs::random::Random;
use crate::inputs::rows::{Row, PATTERNS, ROWS};

/// Two contents for the bytes that must not matter. Where one has a bit, the
/// other has not; and neither is zero throughout, so that clearing shows.
pub const FILLS: [u8; 2] = [0x00, 0xFF];

/// The vector lengths with the largest lengths that may go with them.
pub fn pairs() -> Vec<(usize, usize)> {
    let lengths = VECTOR_LENGTHS.map(|length| length as usize);
    let with_largest = |own| lengths.map(|largest| (own, largest));
    let all = lengths.into_iter().flat_map(with_largest);
    all.filter(|(own, largest)| own <= largest).collect()
}

/// Words of every encoding: all fields low, all high, two mixtures, and some
/// at random.
pub fn words(random: &mut Random) -> Vec<u32> {
    let of_row = |row: &Row| {
        let mut bits = vec![row.lowest(), row.highest()];
        bits.extend(PATTERNS.map(|pattern| row.mixed(pattern)));
        bits.extend((0..4).map(|_| row.random(random)));
        bits.iter().map(|bits| row.word(bits)).collect::<Vec<_>>()
    };
    ROWS.iter().flat_map(of_row).collect()
}

/// A state at random in buffers for no longer vectors, in which the word is
/// done: the stack pointer is aligned, and memory has the whole slice, with
/// three bytes to spare at both ends.
pub fn state(vector_bytes: usize, word: u32, random: &mut Random) -> Machine {
    let mut machine = Machine::new(vector_bytes);
    for number in &mut machine.x {
        *number = 16 + (random.bits() >> 24);
    }
    machine.x[31] &= !15;
    for buffer in [&mut machine.z, &mut machine.p, &mut machine.za] {
        random.fill(buffer);
    }
    let operation = decode(word, 3).expect("every word of the rows decodes");
    let offset = match operation.offset_register {
        31 => 0,
        register => machine.x[usize::from(register)],
    };
    let base = machine.x[usize::from(operation.base)];
    let first = base + offset * u64::from(operation.element_bytes);
    machine.set_memory(first - 3, vector_bytes + 6);
    machine
}

/// The same state in buffers for vectors of `largest` bytes. What is beyond B
/// of a vector or beyond B/8 of a predicate, and ZA vectors from B on, is of
/// that fill.
pub fn embedded(narrow: &Machine, largest: usize, fill: u8) -> Machine {
    let own = narrow.vector_bytes();
    let mut long = narrow.clone();
    long.settings.largest_vector_bytes = largest as u64;
    long.z = spread(&narrow.z, own, largest, filled(32 * largest, fill));
    long.p = spread(&narrow.p, own / 8, largest / 8, filled(2 * largest, fill));
    long.za = spread(&narrow.za, own, largest, filled(largest * largest, fill));
    long
}

/// Puts the pieces of `own` bytes into the others, `apart` bytes apart.
fn spread(pieces: &[u8], own: usize, apart: usize, mut others: Vec<u8>) -> Vec<u8> {
    for (number, piece) in pieces.chunks(own).enumerate() {
        others[number * apart..][..own].copy_from_slice(piece);
    }
    others
}

fn filled(length: usize, fill: u8) -> Vec<u8> {
    let byte = |at: usize| (77 + 151 * at + 29 * (at / 256)) as u8 ^ fill;
    (0..length).map(byte).collect()
}
