//! Worked examples of our own for the words that request 1 added, in the
//! manner of document 01, section 7; the pages of the three instructions
//! say what is right.

use super::machine::{Machine, DONE};
use crate::encode::encode;
use crate::flat::{self, Flat};
use crate::refusal::Refusal;

/// One word of each added instruction, with its least level.
const LEAST_LEVELS: [(u32, u64); 3] = [(0xC002_0000, 1), (0xC006_0800, 2), (0xC006_0E00, 3)];

/// Below its level a word is refused with 3, and from it on it is done.
#[test]
fn the_level_decides() {
    for (word, least) in LEAST_LEVELS {
        for level in 0..=3 {
            let mut machine = Machine::new(16);
            machine.settings.level = level;
            if level < least {
                machine.expect_refused(word, 3);
            } else {
                assert_eq!(machine.run(word), DONE, "{word:08X}");
            }
        }
    }
}

/// Answers 4 and 5, for each of the added instructions.
#[test]
fn both_switches_matter() {
    for (word, _) in LEAST_LEVELS {
        let mut machine = Machine::new(16);
        machine.settings.za_on = false;
        machine.expect_refused(word, 5);
        machine.settings.streaming = false;
        machine.expect_refused(word, 4);
    }
}

/// MOVAZ from tile does not come down with MOVA: it is refused below level
/// 3, and with a predicate (bits 12:10 not 0) at every level.
#[test]
fn bit_nine_is_looked_at() {
    let mut machine = Machine::new(16);
    machine.set_all_active(0);
    for level in [1, 2] {
        machine.settings.level = level;
        machine.expect_refused(0xC002_0200, 3);
    }
    for level in 0..=3 {
        machine.settings.level = level;
        for word in [0xC002_0600, 0xC042_0A00, 0xC082_1200, 0xC0C3_1E00] {
            machine.expect_refused(word, 3);
        }
    }
}

/// Row (W14 + 11) mod B of the byte tile under P5: every third byte goes to
/// Z9, the others and ZA stay.
#[test]
fn a_row_of_the_byte_tile_is_merged() {
    for vector_bytes in [16, 32, 64, 128, 256] {
        let mut machine = Machine::new(vector_bytes);
        machine.settings.level = 1;
        machine.set_w(14, vector_bytes as u32 - 5);
        machine.set_predicate(5, (0..vector_bytes).step_by(3));
        let mut register = machine.z(9);
        for e in (0..vector_bytes).step_by(3) {
            register[e] = machine.za(6)[e];
        }
        let mut wanted = machine.clone();
        wanted.set_z(9, &register);
        machine.expect_done(0xC002_5569, &wanted);
    }
}

/// Column (6 + 5) mod 8 of tile 1 of two bytes under P6: element e is bytes
/// 6 and 7 of vector 2e+1.
#[test]
fn a_column_of_two_byte_elements_is_merged() {
    let mut machine = Machine::new(16);
    machine.set_w(12, 6);
    machine.set_predicate(6, [2, 6, 14]);
    let mut register = machine.z(30);
    for e in [1, 3, 7] {
        register[2 * e..2 * e + 2].copy_from_slice(&machine.za(2 * e + 1)[6..8]);
    }
    let mut wanted = machine.clone();
    wanted.set_z(30, &register);
    machine.expect_done(0xC042_99BE, &wanted);
}

/// Column 0 of tile 2 of four bytes under P3. Bit 4e alone decides on
/// element e: bits 1, 5, 14 and 31 are not looked at.
#[test]
fn bits_that_are_not_looked_at() {
    let mut machine = Machine::new(32);
    machine.settings.level = 1;
    machine.set_w(13, 7);
    machine.set_predicate(3, [1, 5, 14, 31]);
    let unchanged = machine.clone();
    machine.clone().expect_done(0xC082_AD25, &unchanged);
    machine.set_predicate(3, [0, 8, 20]);
    let mut register = machine.z(5);
    for e in [0, 2, 5] {
        register[4 * e..4 * e + 4].copy_from_slice(&machine.za(4 * e + 2)[..4]);
    }
    let mut wanted = machine.clone();
    wanted.set_z(5, &register);
    machine.expect_done(0xC082_AD25, &wanted);
}

/// W15 + 1 is 2^32, so the column is 0 of tile 6 of eight bytes; P7 makes
/// the even elements active.
#[test]
fn a_column_at_the_top_of_the_index() {
    let mut machine = Machine::new(64);
    machine.set_w(15, u32::MAX);
    machine.set_predicate(7, [0, 16, 32, 48]);
    let mut register = machine.z(31);
    for e in [0, 2, 4, 6] {
        register[8 * e..8 * e + 8].copy_from_slice(&machine.za(8 * e + 6)[..8]);
    }
    let mut wanted = machine.clone();
    wanted.set_z(31, &register);
    machine.expect_done(0xC0C2_FDBF, &wanted);
}

/// With n = 1 the slice is vector 15 whatever W12 holds, and bit 0 of P1
/// moves all of it or nothing.
#[test]
fn one_element_only() {
    for w in [0, 1, 7, u32::MAX] {
        let mut machine = Machine::new(16);
        machine.set_w(12, w);
        machine.set_predicate(1, 1..16);
        let unchanged = machine.clone();
        machine.clone().expect_done(0xC0C3_05E2, &unchanged);
        machine.set_predicate(1, [0]);
        let mut wanted = machine.clone();
        wanted.set_z(2, &machine.za(15));
        machine.expect_done(0xC0C3_05E2, &wanted);
    }
}

/// The words of examples 7 and 8 with bit 9 changed: the same registers
/// take the same vectors, without zeroing from two, with it from four.
#[test]
fn the_other_numbers_of_registers() {
    let mut machine = Machine::new(16);
    machine.set_w(8, 6);
    machine.set_w(10, 2);
    let mut wanted = machine.clone();
    for (register, vector) in [(10, 1), (11, 9)] {
        wanted.set_z(register, &machine.za(vector));
    }
    machine.clone().expect_done(0xC006_086A, &wanted);
    let mut wanted = machine.clone();
    for (register, vector) in [(28, 1), (29, 5), (30, 9), (31, 13)] {
        wanted.set_z(register, &machine.za(vector));
        wanted.set_za(vector, &[0; 16]);
    }
    machine.expect_done(0xC006_4EFC, &wanted);
}

/// All four array forms at every vector length: W9 + 7 is 2^32 + 6, so the
/// first vector is 6 mod (B/r) and the others are B/r apart.
#[test]
fn groups_at_every_vector_length() {
    let forms = [
        (0xC006_28E8, 2, false),
        (0xC006_2AE8, 2, true),
        (0xC006_2CE8, 4, false),
        (0xC006_2EE8, 4, true),
    ];
    for vector_bytes in [16, 32, 64, 128, 256] {
        for (word, registers, zeroing) in forms {
            let mut machine = Machine::new(vector_bytes);
            machine.set_w(9, u32::MAX);
            let stride = vector_bytes / registers;
            let mut wanted = machine.clone();
            for register in 0..registers {
                let vector = 6 % stride + register * stride;
                wanted.set_z(8 + register, &machine.za(vector));
                if zeroing {
                    wanted.set_za(vector, &vec![0; vector_bytes]);
                }
            }
            machine.expect_done(word, &wanted);
        }
    }
}

/// A first register that is not a multiple of 2 or 4 has no word: 3 for
/// executing it, 8 for encoding it.
#[test]
fn first_registers_between_the_groups() {
    let machine = Machine::new(16);
    let forms = [
        (0xC006_0800, flat::MOVA_ARRAY, 2),
        (0xC006_0E00, flat::MOVAZ_ARRAY, 4),
    ];
    for (base, kind, vectors) in forms {
        for first in (0..32).filter(|first| first % vectors != 0) {
            machine.expect_refused(base | u32::from(first), 3);
            let numbers = [kind, 0, 0, 0, 0, 8, 0, first, 0, 0, vectors];
            assert_eq!(encode(&Flat::from_bytes(numbers)), Err(Refusal::Field));
        }
    }
}
