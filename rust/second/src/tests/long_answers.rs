//! Answers 1 and 2 with a largest vector length (request 12, which amends
//! document 01, sections 2 and 6): which lengths may go together, and what
//! they fix.

use super::long_states::pairs;
use super::machine::{Machine, DONE};
use crate::execute::VECTOR_LENGTHS;
use crate::inputs::rows::ROWS;

/// A word of every encoding, and one that decodes at no level, are refused
/// with that number.
fn refused(machine: &Machine, answer: u32) {
    for row in &ROWS {
        machine.expect_refused(row.word(&row.lowest()), answer);
    }
    machine.expect_refused(0xC000_0010, answer);
}

/// Answer 1: a largest length that is none of the five, below or above B.
/// Numbers whose low byte or low half would be good are among them.
#[test]
fn the_largest_length_is_one_of_the_five() {
    for vector_bytes in [16, 64, 256] {
        let mut machine = Machine::new(vector_bytes);
        for largest in [
            0,
            1,
            8,
            15,
            24,
            65,
            192,
            255,
            257,
            512,
            1 << 8 | 16,
            1 << 32 | 64,
            1 << 32 | 256,
            1 << 63,
            u64::MAX,
        ] {
            machine.settings.largest_vector_bytes = largest;
            refused(&machine, 1);
        }
    }
}

/// Answer 1: one of the five that is below B, be the buffers of B's lengths
/// or of its own.
#[test]
fn the_largest_length_is_not_below() {
    for (below, vector_bytes) in pairs() {
        for laid_out in [below, vector_bytes] {
            let mut machine = Machine::in_long_buffers(vector_bytes, laid_out);
            machine.settings.largest_vector_bytes = below as u64;
            if below < vector_bytes {
                refused(&machine, 1);
            } else {
                assert_eq!(machine.run(0xC000_0000), DONE);
            }
        }
    }
}

/// There are fifteen pairs, and each is accepted with the lengths that the
/// largest fixes.
#[test]
fn fifteen_pairs_are_accepted() {
    assert_eq!(pairs().len(), 15);
    for (vector_bytes, largest) in pairs() {
        let mut machine = Machine::in_long_buffers(vector_bytes, largest);
        assert_eq!(machine.z.len(), 32 * largest);
        assert_eq!(machine.p.len(), 16 * largest / 8);
        assert_eq!(machine.za.len(), largest * largest);
        for row in ROWS.iter() {
            assert_eq!(machine.run(row.word(&row.lowest())), DONE);
        }
    }
}

/// Answer 2: each buffer one too short, one too long, empty, and of the
/// length that any other vector length would fix, B among them.
#[test]
fn lengths_go_by_the_largest() {
    for (vector_bytes, largest) in pairs() {
        let right = Machine::in_long_buffers(vector_bytes, largest);
        for length in [0, 31, 33] {
            let mut machine = right.clone();
            machine.x.resize(length, 0);
            refused(&machine, 2);
        }
        for length in wrong_lengths(largest, |own| 32 * own) {
            let mut machine = right.clone();
            machine.z.resize(length, 0);
            refused(&machine, 2);
        }
        for length in wrong_lengths(largest, |own| 2 * own) {
            let mut machine = right.clone();
            machine.p.resize(length, 0);
            refused(&machine, 2);
        }
        for length in wrong_lengths(largest, |own| own * own) {
            let mut machine = right.clone();
            machine.za.resize(length, 0);
            refused(&machine, 2);
        }
    }
}

/// The lengths to try in place of the one that the largest length fixes.
fn wrong_lengths(largest: usize, fixed: fn(usize) -> usize) -> Vec<usize> {
    let right = fixed(largest);
    let others = VECTOR_LENGTHS.map(|own| fixed(own as usize));
    let near = [0, right - 1, right + 1];
    let all = near.into_iter().chain(others);
    all.filter(|&length| length != right).collect()
}

/// Answer 2 as well: all buffers together of B's own lengths.
#[test]
fn buffers_of_the_vector_length_are_too_short() {
    for (vector_bytes, largest) in pairs() {
        let mut machine = Machine::new(vector_bytes);
        machine.settings.largest_vector_bytes = largest as u64;
        if vector_bytes < largest {
            refused(&machine, 2);
        }
    }
}

/// The lowest number that applies: 1 for the largest length goes before 2
/// and before every later one, and 2 by it before 3.
#[test]
fn the_lowest_number_is_given() {
    let mut machine = Machine::in_long_buffers(32, 64);
    machine.settings.za_on = false;
    machine.settings.streaming = false;
    machine.settings.level = 0;
    refused(&machine, 3);
    machine.settings.largest_vector_bytes = 128;
    refused(&machine, 2);
    machine.settings.largest_vector_bytes = 16;
    refused(&machine, 1);
}
