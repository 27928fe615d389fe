//! The worked examples of document 01, section 7, as far as they speak of
//! execution. Example 11 is about encoding only and is with the words.

use super::machine::Machine;

/// Example 1: byte tile, row (W12) mod B, P0, Z0.
#[test]
fn example_1_a_row_of_the_byte_tile() {
    for vector_bytes in [16, 32, 64, 128, 256] {
        for (w, row) in [(0, 0), (5, 5), (vector_bytes + 3, 3)] {
            let mut machine = Machine::new(vector_bytes);
            machine.set_w(12, w as u32);
            machine.set_all_active(0);
            let mut wanted = machine.clone();
            wanted.set_za(row, &machine.z(0));
            machine.expect_done(0xC000_0000, &wanted);
        }
    }
}

/// Example 2: vertical slice 0 of tile 2; element e is bytes 0 to 3 of
/// vector 4e+2.
#[test]
fn example_2_a_column_of_four_byte_elements() {
    let mut machine = Machine::new(32);
    machine.set_w(13, 7);
    machine.set_all_active(3);
    let source = machine.z(5);
    let mut wanted = machine.clone();
    for e in 0..8 {
        let mut vector = machine.za(4 * e + 2);
        vector[..4].copy_from_slice(&source[4 * e..4 * e + 4]);
        wanted.set_za(4 * e + 2, &vector);
    }
    machine.expect_done(0xC080_ACA9, &wanted);
}

/// Example 3: two words that decode at no level.
#[test]
fn example_3_words_without_an_encoding() {
    for word in [0xC000_0010, 0xC041_0000] {
        for level in 0..=3 {
            let mut machine = Machine::new(16);
            machine.set_all_active(0);
            machine.settings.level = level;
            machine.expect_refused(word, 3);
        }
    }
}

/// Example 4: with n = 1 the slice is vector 15 whatever W12 holds.
#[test]
fn example_4_one_slice_only() {
    for w in [0, 1, 7, 0x8000_0000, u32::MAX] {
        let mut machine = Machine::new(16);
        machine.set_w(12, w);
        machine.set_all_active(0);
        let mut wanted = machine.clone();
        wanted.set_za(15, &machine.z(0));
        machine.expect_done(0xC0C1_000F, &wanted);
    }
}

/// Example 5: MOVAZ from the byte tile is refused at level 2 and done at 3.
#[test]
fn example_5_the_level_decides() {
    let mut machine = Machine::new(16);
    machine.set_w(12, 18);
    machine.settings.level = 2;
    machine.expect_refused(0xC002_0200, 3);
    machine.settings.level = 3;
    let mut wanted = machine.clone();
    wanted.set_z(0, &machine.za(2));
    wanted.set_za(2, &[0; 16]);
    machine.expect_done(0xC002_0200, &wanted);
}

/// Example 6: W15 + 1 is 2^32, so the column is 0 of tile 6; eight elements
/// go to Z31 and are then zero.
#[test]
fn example_6_a_column_at_the_top_of_the_index() {
    let mut machine = Machine::new(64);
    machine.set_w(15, 4_294_967_295);
    let mut register = Vec::new();
    let mut wanted = machine.clone();
    for e in 0..8 {
        let mut vector = machine.za(8 * e + 6);
        register.extend_from_slice(&vector[..8]);
        vector[..8].fill(0);
        wanted.set_za(8 * e + 6, &vector);
    }
    wanted.set_z(31, &register);
    machine.expect_done(0xC0C2_E3BF, &wanted);
}

/// Example 7: vectors 1, 5, 9 and 13 to Z28 to Z31; ZA stays.
#[test]
fn example_7_four_vectors() {
    let mut machine = Machine::new(16);
    machine.set_w(10, 2);
    let mut wanted = machine.clone();
    for (register, vector) in [(28, 1), (29, 5), (30, 9), (31, 13)] {
        wanted.set_z(register, &machine.za(vector));
    }
    machine.expect_done(0xC006_4CFC, &wanted);
}

/// Example 8: vectors 1 and 9 to Z10 and Z11, both then zero.
#[test]
fn example_8_two_vectors() {
    let mut machine = Machine::new(16);
    machine.set_w(8, 6);
    machine.expect_refused(0xC006_0A01, 3);
    let mut wanted = machine.clone();
    for (register, vector) in [(10, 1), (11, 9)] {
        wanted.set_z(register, &machine.za(vector));
        wanted.set_za(vector, &[0; 16]);
    }
    machine.expect_done(0xC006_0A6A, &wanted);
}

/// Example 9: a stack pointer that is not a multiple of 16 matters only
/// with an active element, and only with the stack check on. That it is a
/// base like any other with the check off is in `stack_check`.
#[test]
fn example_9_the_stack_pointer() {
    for element in [0, 7, 15] {
        let mut machine = Machine::new(16);
        machine.settings.memory_address = 0x1000;
        machine.x[31] = 0x1008;
        machine.set_predicate(0, [element]);
        machine.expect_refused(0xE03F_03E0, 6);
    }
    for stack_check in [true, false] {
        let mut machine = Machine::new(16);
        machine.settings.stack_check = stack_check;
        machine.x[31] = 0x1008;
        let wanted = machine.clone();
        machine.expect_done(0xE03F_03E0, &wanted);
    }
}

/// Example 10: the addresses wrap at 2^64; elements 0 to 3 are outside.
#[test]
fn example_10_addresses_wrap() {
    let mut machine = Machine::new(16);
    machine.set_w(12, 16 + 9);
    machine.x[1] = u64::MAX - 7;
    machine.x[2] = 4;
    let mut part = machine.clone();
    machine.set_all_active(0);
    machine.expect_fault(0xE022_0020, 0xFFFF_FFFF_FFFF_FFFC, 0);
    part.set_predicate(0, 4..16);
    let mut wanted = part.clone();
    wanted.memory[..12].copy_from_slice(&part.za(9)[4..]);
    part.expect_done(0xE022_0020, &wanted);
}

/// Example 12: with streaming and ZA off the lower number is given.
#[test]
fn example_12_both_switches_off() {
    let mut machine = Machine::new(16);
    machine.set_all_active(0);
    machine.settings.level = 1;
    machine.settings.streaming = false;
    machine.settings.za_on = false;
    machine.expect_refused(0xC000_0000, 4);
    machine.settings.streaming = true;
    machine.expect_refused(0xC000_0000, 5);
}

/// Example 13: bits 1, 2 and 3 do not make element 0 of four bytes active;
/// bit 0 does.
#[test]
fn example_13_bits_that_are_not_looked_at() {
    let mut machine = Machine::new(32);
    machine.set_w(12, 3);
    machine.set_predicate(0, [1, 2, 3]);
    let unchanged = machine.clone();
    machine.clone().expect_done(0xC080_0000, &unchanged);
    machine.set_predicate(0, [0]);
    let mut wanted = machine.clone();
    let mut vector = machine.za(12);
    vector[..4].copy_from_slice(&machine.z(0)[..4]);
    wanted.set_za(12, &vector);
    machine.expect_done(0xC080_0000, &wanted);
}

/// The vertical store: element e is byte 2 of vector e (section 3), and the
/// memory's end may be 2^64.
#[test]
fn a_column_is_stored_up_to_the_last_address() {
    let mut machine = Machine::new(16);
    machine.settings.memory_address = u64::MAX - 63;
    machine.set_w(14, 1);
    machine.set_all_active(5);
    machine.x[31] = u64::MAX - 15;
    let mut wanted = machine.clone();
    for e in 0..16 {
        wanted.memory[48 + e] = machine.za(e)[2];
    }
    // Rm 31, V, W14, P5, stack pointer, immediate 1.
    machine.expect_done(0xE03F_D7E1, &wanted);
}
