//! The mistakes about buffers that are laid out for longer vectors. Each test
//! states what is right by request 12, and what the mistake makes of it: that
//! and nothing more.
//!
//! Vectors have 16 bytes in buffers for 32, so that they start 32 bytes apart
//! and predicates 4.

use super::access_mistakes::mistaken_leaves;
use super::long_states::{state, words};
use super::machine::{plain, Machine, DONE};
use super::memory_mistakes::both_right;
use super::mistakes::right_and_mistaken;
use crate::execute::{Mistake, VECTOR_LENGTHS};
use crate::inputs::random::Random;

/// The mistakes that these tests are about.
const MISTAKES: [Mistake; 8] = [
    Mistake::RegistersPacked,
    Mistake::PredicatesPacked,
    Mistake::ZaVectorsPacked,
    Mistake::LengthsByVectorLength,
    Mistake::LargestBelowAccepted,
    Mistake::BeyondCleared,
    Mistake::GroupsByLargest,
    Mistake::SlicesByLargest,
];

/// Every element of P0 active, W8 and W12 as given.
fn machine(w: u32) -> Machine {
    let mut machine = Machine::in_long_buffers(16, 32);
    machine.set_w(8, w);
    machine.set_w(12, w);
    machine.set_all_active(0);
    machine
}

/// What the moves of sixteen bytes from place to place leave.
fn moved(machine: &Machine, z_from_za: &[(usize, usize)]) -> Machine {
    let mut left = machine.clone();
    for &(z, za) in z_from_za {
        left.z[z..z + 16].copy_from_slice(&machine.za[za..za + 16]);
    }
    left
}

/// The same, and sixteen bytes of ZA at each of the places are then zero.
fn moved_zeroing(machine: &Machine, z_from_za: &[(usize, usize)]) -> Machine {
    let mut left = moved(machine, z_from_za);
    for &(_, za) in z_from_za {
        left.za[za..za + 16].fill(0);
    }
    left
}

/// Z3 is at byte 96 and not at 48, read or written; Z0 is at 0 either way.
#[test]
fn registers_packed() {
    let mistake = Mistake::RegistersPacked;
    let machine = machine(2);
    let row_from = |z: usize| {
        let mut left = machine.clone();
        left.za[64..80].copy_from_slice(&machine.z[z..z + 16]);
        left
    };
    right_and_mistaken(&machine, 0xC000_0060, mistake, &row_from(96));
    mistaken_leaves(&machine, 0xC000_0060, mistake, &row_from(48));
    both_right(&machine, 0xC000_0000, mistake, &row_from(0));
    let (right, left) = (moved(&machine, &[(96, 64)]), moved(&machine, &[(48, 64)]));
    right_and_mistaken(&machine, 0xC002_0003, mistake, &right);
    mistaken_leaves(&machine, 0xC002_0003, mistake, &left);
}

/// P5 is at byte 20 and not at 10: element 0 is active and element 1 is not.
#[test]
fn predicates_packed() {
    let mistake = Mistake::PredicatesPacked;
    let mut machine = machine(2);
    (machine.p[20], machine.p[10]) = (0b01, 0b10);
    let with_element = |e: usize| {
        let mut left = machine.clone();
        left.za[64 + e] = machine.z[e];
        left
    };
    right_and_mistaken(&machine, 0xC000_1400, mistake, &with_element(0));
    mistaken_leaves(&machine, 0xC000_1400, mistake, &with_element(1));
}

/// Vector 2 is at byte 64 and not at 32, vector 10 at 320 and not at 160; in
/// a row, in a column, and in a group.
#[test]
fn za_vectors_packed() {
    let mistake = Mistake::ZaVectorsPacked;
    let machine = machine(2);
    let row_at = |za: usize| {
        let mut left = machine.clone();
        left.za[za..za + 16].copy_from_slice(&machine.z[..16]);
        left
    };
    right_and_mistaken(&machine, 0xC000_0000, mistake, &row_at(64));
    mistaken_leaves(&machine, 0xC000_0000, mistake, &row_at(32));
    let column_with = |apart: usize| {
        let mut left = machine.clone();
        for e in 0..16 {
            left.za[apart * e + 2] = machine.z[e];
        }
        left
    };
    right_and_mistaken(&machine, 0xC000_8000, mistake, &column_with(32));
    mistaken_leaves(&machine, 0xC000_8000, mistake, &column_with(16));
    let right = moved_zeroing(&machine, &[(0, 64), (32, 320)]);
    let left = moved_zeroing(&machine, &[(0, 32), (32, 160)]);
    right_and_mistaken(&machine, 0xC006_0A00, mistake, &right);
    mistaken_leaves(&machine, 0xC006_0A00, mistake, &left);
}

/// Buffers for 32 are right and refused with 2; those for 16 are too short
/// and taken, and row 2 is then at byte 32.
#[test]
fn lengths_by_vector_length() {
    let mistake = Mistake::LengthsByVectorLength;
    let long = machine(2);
    let mut wanted = long.clone();
    wanted.za[64..80].copy_from_slice(&long.z[..16]);
    right_and_mistaken(&long, 0xC000_0000, mistake, &wanted);
    mistaken_refuses(&long, 0xC000_0000, mistake, 2);
    let mut short = Machine::new(16);
    short.set_w(12, 2);
    short.set_all_active(0);
    short.settings.largest_vector_bytes = 32;
    short.expect_refused(0xC000_0000, 2);
    let mut left = short.clone();
    left.za[32..48].copy_from_slice(&short.z[..16]);
    mistaken_leaves(&short, 0xC000_0000, mistake, &left);
}

/// The mistaken word is refused with that answer.
fn mistaken_refuses(machine: &Machine, word: u32, mistake: Mistake, answer: u32) {
    machine.expect_answer(mistake, word, plain(answer));
}

/// B 32 with a largest length of 16: in buffers for 32 the word is done as
/// with 32 there, and buffers for 16 are refused with 2 in place of 1. Other
/// largest lengths are still refused with 1.
#[test]
fn largest_below_accepted() {
    let mistake = Mistake::LargestBelowAccepted;
    let mut machine = Machine::new(32);
    machine.set_w(12, 2);
    machine.set_all_active(0);
    machine.settings.largest_vector_bytes = 16;
    machine.expect_refused(0xC000_0000, 1);
    let mut left = machine.clone();
    left.za[64..96].copy_from_slice(&machine.z[..32]);
    mistaken_leaves(&machine, 0xC000_0000, mistake, &left);
    let mut short = Machine::new(16);
    short.settings.vector_bytes = 32;
    short.expect_refused(0xC000_0000, 1);
    mistaken_refuses(&short, 0xC000_0000, mistake, 2);
    for largest in [0, 8, 24, 512] {
        machine.settings.largest_vector_bytes = largest;
        mistaken_refuses(&machine, 0xC000_0000, mistake, 1);
    }
}

/// Z2 and Z3 have their bytes 16 to 31 at 80 and at 112. MOVAZ from tile
/// takes Z2 alone; MOVA from tile and a move to a tile clear nothing.
#[test]
fn beyond_cleared() {
    let mistake = Mistake::BeyondCleared;
    let machine = machine(2);
    let cleared = |right: &Machine, beyond: &[usize]| {
        let mut left = right.clone();
        for &first in beyond {
            left.z[first..first + 16].fill(0);
        }
        left
    };
    let one = moved_zeroing(&machine, &[(64, 64)]);
    right_and_mistaken(&machine, 0xC002_0202, mistake, &one);
    mistaken_leaves(&machine, 0xC002_0202, mistake, &cleared(&one, &[80]));
    let group = [(64, 64), (96, 320)];
    for (word, right) in [
        (0xC006_0802, moved(&machine, &group)),
        (0xC006_0A02, moved_zeroing(&machine, &group)),
    ] {
        right_and_mistaken(&machine, word, mistake, &right);
        mistaken_leaves(&machine, word, mistake, &cleared(&right, &[80, 112]));
    }
    both_right(
        &machine,
        0xC002_0002,
        mistake,
        &moved(&machine, &[(64, 64)]),
    );
    let mut row = machine.clone();
    row.za[64..80].copy_from_slice(&machine.z[64..80]);
    both_right(&machine, 0xC000_0040, mistake, &row);
}

/// W8 is 5. Of four: vectors 1, 5, 9 and 13, and not 5, 13, 21 and 29. Of
/// two: 5 and 13, and not 5 and 21. With and without zeroing.
#[test]
fn groups_by_largest() {
    let mistake = Mistake::GroupsByLargest;
    let machine = machine(5);
    let four = [(0, 32), (32, 160), (64, 288), (96, 416)];
    let mistaken_four = [(0, 160), (32, 416), (64, 672), (96, 928)];
    let two = [(0, 160), (32, 416)];
    let mistaken_two = [(0, 160), (32, 672)];
    for (word, right, mistaken) in [
        (0xC006_0C00, &four[..], &mistaken_four[..]),
        (0xC006_0800, &two, &mistaken_two),
    ] {
        right_and_mistaken(&machine, word, mistake, &moved(&machine, right));
        mistaken_leaves(&machine, word, mistake, &moved(&machine, mistaken));
        // Bit 9 has the vectors zeroed.
        let (word, right) = (word | 0x200, moved_zeroing(&machine, right));
        right_and_mistaken(&machine, word, mistake, &right);
        mistaken_leaves(&machine, word, mistake, &moved_zeroing(&machine, mistaken));
    }
}

/// W12 is 6, and tile 0 of four bytes has slices 0 to 3: slice 2, and not
/// slice 6, which would be vector 24 or bytes 24 to 27 of each vector.
#[test]
fn slices_by_largest() {
    let mistake = Mistake::SlicesByLargest;
    let machine = machine(6);
    let row_at = |za: usize| {
        let mut left = machine.clone();
        left.za[za..za + 16].copy_from_slice(&machine.z[..16]);
        left
    };
    right_and_mistaken(&machine, 0xC080_0000, mistake, &row_at(8 * 32));
    mistaken_leaves(&machine, 0xC080_0000, mistake, &row_at(24 * 32));
    let column_at = |byte: usize| {
        let mut left = machine.clone();
        for e in 0..4 {
            let element = &machine.z[4 * e..4 * e + 4];
            left.za[4 * e * 32 + byte..][..4].copy_from_slice(element);
        }
        left
    };
    right_and_mistaken(&machine, 0xC080_8000, mistake, &column_at(8));
    mistaken_leaves(&machine, 0xC080_8000, mistake, &column_at(24));
}

/// In buffers for no longer vectors all of them do what is right.
#[test]
fn none_shows_in_short_buffers() {
    let mut random = Random::new(56);
    for vector_bytes in [16, 64, 256] {
        for word in words(&mut random) {
            let machine = state(vector_bytes, word, &mut random);
            let mut right = machine.clone();
            assert_eq!(right.run(word), DONE);
            for mistake in MISTAKES {
                mistaken_leaves(&machine, word, mistake, &right);
            }
        }
    }
}

/// No mistake, old or new, leads out of a buffer and stops the program:
/// whatever the two lengths are, and whichever of them the buffers are for.
#[test]
fn no_mistake_stops_the_program() {
    let mut random = Random::new(78);
    let lengths = VECTOR_LENGTHS.map(|length| length as usize);
    let words: Vec<u32> = words(&mut random).into_iter().step_by(3).collect();
    for (vector_bytes, largest) in lengths.into_iter().flat_map(|b| lengths.map(|l| (b, l))) {
        for laid_out in [vector_bytes, largest] {
            let mut machine = Machine::in_long_buffers(vector_bytes, laid_out);
            machine.settings.largest_vector_bytes = largest as u64;
            machine.p.fill(0xFF);
            machine.x.fill_with(|| random.bits());
            for (_, mistake) in Mistake::NAMED {
                for &word in &words {
                    machine.run_with(mistake, word);
                }
            }
        }
    }
}
