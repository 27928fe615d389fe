//! The mistakes of document 01, section 8, and those about the words that
//! request 1 added. Each test states what is right by section 5 and shows
//! that the mistaken run gives something else.

use super::machine::{plain, Machine, DONE};
use crate::execute::Mistake;

/// The word leaves `wanted`, and with the mistake it does not.
pub fn right_and_mistaken(machine: &Machine, word: u32, mistake: Mistake, wanted: &Machine) {
    machine.clone().expect_done(word, wanted);
    let mut mistaken = machine.clone();
    let answer = mistaken.run_with(mistake, word);
    assert!(answer != DONE || mistaken != *wanted, "{mistake:?}");
}

/// The rows of tile 1 of four bytes are vectors 1, 5, 9 and on, not the
/// neighbours 4 to 7.
#[test]
fn tile_as_a_block() {
    let mut machine = Machine::new(16);
    machine.set_w(12, 2);
    machine.set_all_active(0);
    // m=4, horizontal, tile 1, offset 0, Z0.
    let mut wanted = machine.clone();
    wanted.set_za(9, &machine.z(0));
    right_and_mistaken(&machine, 0xC080_0004, Mistake::TileAsBlock, &wanted);
    // The column 2 of that tile, with zeroing.
    let mut wanted = machine.clone();
    let mut register = Vec::new();
    for vector in [1, 5, 9, 13] {
        let mut bytes = machine.za(vector);
        register.extend_from_slice(&bytes[8..12]);
        bytes[8..12].fill(0);
        wanted.set_za(vector, &bytes);
    }
    wanted.set_z(0, &register);
    right_and_mistaken(&machine, 0xC082_8280, Mistake::TileAsBlock, &wanted);
}

/// With n = 4 the slice 4 + 3 is slice 3, in both directions.
#[test]
fn slice_modulo_vector_length() {
    let mistake = Mistake::SliceModuloVectorLength;
    let mut machine = Machine::new(16);
    machine.set_w(12, 7);
    machine.set_all_active(0);
    let mut wanted = machine.clone();
    wanted.set_za(12, &machine.z(0));
    right_and_mistaken(&machine, 0xC080_0000, mistake, &wanted);
    let mut wanted = machine.clone();
    for e in 0..4 {
        let mut bytes = machine.za(4 * e);
        bytes[12..16].copy_from_slice(&machine.z(0)[4 * e..4 * e + 4]);
        wanted.set_za(4 * e, &bytes);
    }
    right_and_mistaken(&machine, 0xC080_8000, mistake, &wanted);
}

/// Rn 31 is the stack pointer.
#[test]
fn base_thirty_one_as_zero() {
    let mut machine = Machine::new(16);
    machine.set_w(12, 0);
    machine.set_all_active(0);
    machine.x[2] = 1;
    machine.x[31] = 32;
    let mut wanted = machine.clone();
    wanted.memory[33..49].copy_from_slice(&machine.za(0));
    let mistake = Mistake::BaseThirtyOneAsZero;
    right_and_mistaken(&machine, 0xE022_03E0, mistake, &wanted);
}

/// Rm 31 reads as zero.
#[test]
fn offset_thirty_one_as_stack_pointer() {
    let mut machine = Machine::new(16);
    machine.set_w(12, 0);
    machine.set_all_active(0);
    machine.x[1] = 5;
    machine.x[31] = 16;
    let mut wanted = machine.clone();
    wanted.memory[5..21].copy_from_slice(&machine.za(0));
    let mistake = Mistake::OffsetThirtyOneAsStackPointer;
    right_and_mistaken(&machine, 0xE03F_0020, mistake, &wanted);
}

/// Element 1 of two bytes looks at bit 2; bit 1 belongs to element 0 and is
/// not looked at.
#[test]
fn predicate_bit_per_element() {
    let mut machine = Machine::new(16);
    machine.set_w(12, 0);
    machine.set_predicate(0, [2]);
    let mut bytes = machine.za(0);
    bytes[2..4].copy_from_slice(&machine.z(0)[2..4]);
    let mut wanted = machine.clone();
    wanted.set_za(0, &bytes);
    let mistake = Mistake::PredicateBitPerElement;
    right_and_mistaken(&machine, 0xC040_0000, mistake, &wanted);
    let mut bytes = machine.z(0);
    bytes[2..4].copy_from_slice(&machine.za(0)[2..4]);
    let mut wanted = machine.clone();
    wanted.set_z(0, &bytes);
    right_and_mistaken(&machine, 0xC042_0000, mistake, &wanted);
}

/// Elements 0 to 3 are in memory and element 4 is not: nothing is written.
#[test]
fn store_before_fault() {
    let mut machine = Machine::new(16);
    machine.set_w(12, 0);
    machine.set_all_active(0);
    machine.x[1] = 60;
    machine.x[2] = 0;
    machine.expect_fault(0xE022_0020, 64, 4);
    let mut mistaken = machine.clone();
    let answer = mistaken.run_with(Mistake::StoreBeforeFault, 0xE022_0020);
    assert_eq!(answer, (7, 64, 4));
    assert!(mistaken != machine);
}

/// 2^32 - 1 and 2 make slice 1, whatever the width of the sum; only a trap
/// goes wrong.
#[test]
fn index_add_traps_at_32_bits() {
    let mistake = Mistake::IndexAddTrapsAt32Bits;
    let mut machine = Machine::new(16);
    machine.set_w(12, u32::MAX);
    machine.set_w(8, u32::MAX);
    machine.set_all_active(0);
    let mut wanted = machine.clone();
    wanted.set_za(1, &machine.z(0));
    right_and_mistaken(&machine, 0xC000_0002, mistake, &wanted);
    let mut wanted = machine.clone();
    for register in 0..4 {
        wanted.set_z(register, &machine.za(1 + 4 * register));
    }
    right_and_mistaken(&machine, 0xC006_0C40, mistake, &wanted);
}

/// Why that mistake is a trap and not a wrapping add: every modulus of
/// section 5 divides 2^32, so wrapping leaves the slice number as it is.
#[test]
fn wrapping_at_32_bits_would_be_harmless() {
    for modulus in [1, 2, 4, 8, 16, 32, 64, 128, 256] {
        for offset in 0..16 {
            for w in [0, 1, u32::MAX - 15, u32::MAX - 1, u32::MAX] {
                let whole = (u64::from(w) + offset) % modulus;
                let wrapped = u64::from(w.wrapping_add(offset as u32)) % modulus;
                assert_eq!(whole, wrapped);
            }
        }
    }
}

/// MOVA from tile keeps element 3 of the register, which is inactive.
#[test]
fn inactive_zeroed() {
    let mut machine = Machine::new(16);
    machine.set_w(12, 0);
    machine.set_predicate(0, [0, 4, 8]);
    let mut bytes = machine.za(0);
    bytes[12..].copy_from_slice(&machine.z(0)[12..]);
    let mut wanted = machine.clone();
    wanted.set_z(0, &bytes);
    right_and_mistaken(&machine, 0xC082_0000, Mistake::InactiveZeroed, &wanted);
}

/// Four vectors are B/4 apart, with and without zeroing, at every length.
#[test]
fn four_by_stride_of_two() {
    let mistake = Mistake::FourByStrideOfTwo;
    for vector_bytes in [16, 32, 64, 128, 256] {
        let mut machine = Machine::new(vector_bytes);
        machine.set_w(8, u32::MAX);
        let (mut wanted, mut wanted_zero) = (machine.clone(), machine.clone());
        for register in 0..4 {
            let vector = vector_bytes / 4 * (register + 1) - 1;
            wanted.set_z(register, &machine.za(vector));
            wanted_zero.set_z(register, &machine.za(vector));
            wanted_zero.set_za(vector, &vec![0; vector_bytes]);
        }
        right_and_mistaken(&machine, 0xC006_0C00, mistake, &wanted);
        right_and_mistaken(&machine, 0xC006_0E00, mistake, &wanted_zero);
    }
}

/// Bit 9 makes the slice zero at level 3. Below it, and with a predicate,
/// there is no such word; the mistake finds one from level 1 on.
#[test]
fn bit_nine_ignored() {
    let mistake = Mistake::BitNineIgnored;
    let mut machine = Machine::new(16);
    machine.set_w(12, 2);
    machine.set_all_active(0);
    let mut wanted = machine.clone();
    wanted.set_z(0, &machine.za(2));
    wanted.set_za(2, &[0; 16]);
    right_and_mistaken(&machine, 0xC002_0200, mistake, &wanted);
    for (word, level, answer) in [
        (0xC002_0200, 0, 3),
        (0xC002_0200, 1, 0),
        (0xC0C3_0200, 2, 0),
        (0xC002_0600, 3, 0),
    ] {
        machine.settings.level = level;
        machine.expect_refused(word, 3);
        let mistaken = machine.clone().run_with(mistake, word);
        assert_eq!(mistaken, plain(answer), "{word:08X}");
    }
}

/// The names of the command line lead back to the mistakes.
#[test]
fn mistakes_have_names() {
    for (name, mistake) in Mistake::NAMED {
        assert_eq!(Mistake::named(name), Some(mistake));
        assert_eq!(format!("{mistake:?}"), name);
    }
    assert_eq!(Mistake::named("None"), None);
}
