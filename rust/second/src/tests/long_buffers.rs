//! Execution in buffers that are laid out for longer vectors (request 12):
//! what is within B is as in buffers for B, and what is beyond never changes
//! and never matters.

use super::long_states::{embedded, pairs, state, words, FILLS};
use super::machine::{Answer, Machine, DONE};
use crate::inputs::random::Random;
use std::collections::BTreeSet;

/// Checks the word in longer buffers, with either content beyond B, against
/// the buffers for B: the same answer, the same bytes within, and those
/// beyond as they were. Gives the answer.
fn as_in_short_buffers(narrow: &Machine, word: u32, largest: usize) -> Answer {
    let mut left = narrow.clone();
    let answer = left.run(word);
    for fill in FILLS {
        let mut long = embedded(narrow, largest, fill);
        assert_eq!(long.run(word), answer, "{word:08X}");
        assert!(long == embedded(&left, largest, fill), "{word:08X}");
    }
    answer
}

/// Every encoding and every pair of lengths, done.
#[test]
fn every_encoding_is_done_as_in_short_buffers() {
    let mut random = Random::new(12);
    for (vector_bytes, largest) in pairs() {
        for word in words(&mut random) {
            let narrow = state(vector_bytes, word, &mut random);
            assert_eq!(as_in_short_buffers(&narrow, word, largest), DONE);
        }
    }
}

/// The same where loads and stores are refused, or nothing is active: with
/// memory that ends early, with a misaligned stack pointer, and with
/// predicates that are zero. The last has neither 6 nor 7.
#[test]
fn every_encoding_is_refused_as_in_short_buffers() {
    let mut random = Random::new(34);
    let mut answers = BTreeSet::new();
    for (vector_bytes, largest) in pairs() {
        for word in words(&mut random) {
            let mut narrow = state(vector_bytes, word, &mut random);
            narrow.memory.truncate(vector_bytes / 2);
            answers.insert(as_in_short_buffers(&narrow, word, largest).0);
            narrow.x[31] += 8;
            answers.insert(as_in_short_buffers(&narrow, word, largest).0);
            narrow.p.fill(0);
            assert_eq!(as_in_short_buffers(&narrow, word, largest), DONE);
        }
    }
    assert_eq!(answers, BTreeSet::from([0, 6, 7]));
}

/// For the examples that are written out: B 16 in buffers for 64. Vectors
/// start 64 bytes apart and predicates 8, of which the first 2 are looked
/// at; all bits beyond are set.
fn example() -> Machine {
    let mut machine = Machine::in_long_buffers(16, 64);
    for register in machine.p.chunks_mut(8) {
        register[2..].fill(0xFF);
    }
    machine
}

/// Row (16 + 5) mod 16 of the byte tile, Z3, P2 with elements 1, 2 and 15:
/// vector 5 is at byte 320 of ZA, Z3 at 192 of Z, P2 at 16 of P.
#[test]
fn a_row_of_the_byte_tile() {
    let mut machine = example();
    machine.set_w(12, 16 + 5);
    (machine.p[16], machine.p[17]) = (0b0000_0110, 0b1000_0000);
    let mut wanted = machine.clone();
    for e in [1, 2, 15] {
        wanted.za[320 + e] = machine.z[192 + e];
    }
    machine.expect_done(0xC000_0860, &wanted);
}

/// Column (4 + 2) mod 4 of tile 1 of four bytes to Z7, with zeroing: bytes 8
/// to 11 of vectors 1, 5, 9 and 13.
#[test]
fn a_column_of_four_byte_elements() {
    let mut machine = example();
    machine.set_w(12, 4 + 2);
    let mut wanted = machine.clone();
    for (e, first) in [72, 328, 584, 840].into_iter().enumerate() {
        let element = &machine.za[first..first + 4];
        wanted.z[448 + 4 * e..][..4].copy_from_slice(element);
        wanted.za[first..first + 4].fill(0);
    }
    machine.expect_done(0xC082_8287, &wanted);
}

/// Vectors 2, 6, 10 and 14 to Z4 to Z7, with zeroing: the stride is 16/4,
/// and W8 is 6.
#[test]
fn a_group_of_four() {
    let mut machine = example();
    machine.set_w(8, 6);
    let mut wanted = machine.clone();
    for (z, za) in [(256, 128), (320, 384), (384, 640), (448, 896)] {
        wanted.z[z..z + 16].copy_from_slice(&machine.za[za..za + 16]);
        wanted.za[za..za + 16].fill(0);
    }
    machine.expect_done(0xC006_0E04, &wanted);
}

/// Row 3 is stored to and loaded from memory of sixteen bytes: there are no
/// further elements that could fault.
#[test]
fn no_element_is_beyond() {
    let mut machine = example();
    machine.set_w(12, 3);
    machine.set_memory(0x1000, 16);
    (machine.x[1], machine.x[2]) = (0x1000, 0);
    (machine.p[0], machine.p[1]) = (0xFF, 0xFF);
    let mut stored = machine.clone();
    stored.memory.copy_from_slice(&machine.za[192..208]);
    machine.clone().expect_done(0xE022_0020, &stored);
    let mut loaded = machine.clone();
    loaded.za[192..208].copy_from_slice(&machine.memory);
    machine.expect_done(0xE002_0020, &loaded);
}

/// All bits of P0 beyond the sixteenth are set, and no element is active: no
/// 6 for the misaligned stack pointer, no 7 without memory, and the load
/// sets row 3 to zero.
#[test]
fn predicate_bits_beyond_are_not_looked_at() {
    let mut machine = example();
    machine.set_w(12, 3);
    machine.memory.clear();
    machine.x[31] = 0x1008;
    let unchanged = machine.clone();
    machine.clone().expect_done(0xE03F_03E0, &unchanged);
    let mut loaded = machine.clone();
    loaded.za[192..208].fill(0);
    machine.expect_done(0xE01F_03E0, &loaded);
}
