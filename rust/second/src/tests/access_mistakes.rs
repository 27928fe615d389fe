//! The mistakes about loads and stores. Each test states what is right by
//! the pages of LD1 and ST1, and what the mistake makes of it: that and
//! nothing more.

use super::machine::{Machine, DONE};
use super::mistakes::right_and_mistaken;
use crate::execute::Mistake;

const LOAD_2: u32 = 0xE042_0020;
const LOAD_4: u32 = 0xE082_0020;
const STORE_4: u32 = 0xE0A2_0020;
const LOAD_8: u32 = 0xE0C2_0020;
const STORE_8: u32 = 0xE0E2_0020;

/// Slice 0, base X1, offset register X2 at 0, those bits of P0; memory has 64
/// bytes from address 0 on.
pub fn machine(base: u64, bits: &[usize]) -> Machine {
    let mut machine = Machine::new(16);
    machine.set_w(12, 0);
    machine.set_predicate(0, bits.iter().copied());
    (machine.x[1], machine.x[2]) = (base, 0);
    machine
}

/// The mistaken word is done and leaves `left`.
pub fn mistaken_leaves(machine: &Machine, word: u32, mistake: Mistake, left: &Machine) {
    let mut mistaken = machine.clone();
    assert_eq!(mistaken.run_with(mistake, word), DONE, "{mistake:?}");
    assert!(mistaken == *left, "{mistake:?} left another state");
}

/// Elements 0 and 2 of four are inactive before and between, 3 after the
/// active ones: all become zero. One mistake keeps all of them, the other
/// the last, in a row and in a column.
#[test]
fn load_keeps_elements() {
    let machine = machine(9, &[4, 8]);
    for (word, vertical) in [(LOAD_4, false), (LOAD_4 | 0x8000, true)] {
        let place = |e: usize| if vertical { (4 * e, 0) } else { (0, 4 * e) };
        let with_zero = |zero: &[usize]| {
            let mut machine = machine.clone();
            for e in [1, 2] {
                let bytes = machine.memory[9 + 4 * e..][..4].to_vec();
                machine.set_za_part(place(e).0, place(e).1, &bytes);
            }
            for &e in zero {
                machine.set_za_part(place(e).0, place(e).1, &[0; 4]);
            }
            machine
        };
        let right = with_zero(&[0, 3]);
        right_and_mistaken(&machine, word, Mistake::LoadKeepsInactive, &right);
        mistaken_leaves(&machine, word, Mistake::LoadKeepsInactive, &with_zero(&[]));
        right_and_mistaken(&machine, word, Mistake::LoadKeepsTrailing, &right);
        mistaken_leaves(&machine, word, Mistake::LoadKeepsTrailing, &with_zero(&[0]));
    }
}

/// Without an active element both keep the whole slice.
#[test]
fn load_keeps_a_slice_without_active_elements() {
    let machine = machine(0, &[]);
    let mut wanted = machine.clone();
    wanted.set_za(0, &[0; 16]);
    for mistake in [Mistake::LoadKeepsInactive, Mistake::LoadKeepsTrailing] {
        right_and_mistaken(&machine, LOAD_2, mistake, &wanted);
        mistaken_leaves(&machine, LOAD_2, mistake, &machine);
    }
}

/// Offset 3 is twelve bytes; taken as three, the elements are still four
/// bytes apart.
#[test]
fn offset_not_scaled() {
    let mistake = Mistake::OffsetNotScaled;
    let mut machine = machine(1, &[0, 4, 8, 12]);
    machine.x[2] = 3;
    let loaded = |first: usize| {
        let mut wanted = machine.clone();
        wanted.set_za(0, &machine.memory[first..first + 16]);
        wanted
    };
    right_and_mistaken(&machine, LOAD_4, mistake, &loaded(13));
    mistaken_leaves(&machine, LOAD_4, mistake, &loaded(4));
    let stored = |first: usize| {
        let mut wanted = machine.clone();
        wanted.memory[first..first + 16].copy_from_slice(&machine.za(0));
        wanted
    };
    right_and_mistaken(&machine, STORE_4, mistake, &stored(13));
    mistaken_leaves(&machine, STORE_4, mistake, &stored(4));
}

/// Element 1 of eight bytes is at 61 and leaves memory with its byte 3.
#[test]
fn fault_at_element() {
    let machine = machine(53, &[0, 8]);
    for word in [LOAD_8, STORE_8] {
        machine.expect_fault(word, 64, 1);
        machine.expect_answer(Mistake::FaultAtElement, word, (7, 61, 1));
    }
}

/// The same element: its first byte is in memory, and with the mistake that
/// is enough. A first byte outside is still told.
#[test]
fn first_byte_checked() {
    let mistake = Mistake::FirstByteChecked;
    let mut machine = machine(53, &[0, 8]);
    machine.expect_fault(STORE_8, 64, 1);
    let mut left = machine.clone();
    left.memory[53..64].copy_from_slice(&machine.za(0)[..11]);
    mistaken_leaves(&machine, STORE_8, mistake, &left);
    machine.expect_fault(LOAD_8, 64, 1);
    let mut left = machine.clone();
    left.set_za(0, &[0; 16]);
    left.set_za_part(0, 0, &machine.memory[53..64]);
    mistaken_leaves(&machine, LOAD_8, mistake, &left);
    machine.x[1] = 56;
    for word in [LOAD_8, STORE_8] {
        machine.expect_answer(mistake, word, (7, 64, 1));
    }
}

/// Elements 0 and 1 stay in their places and are turned round within; bytes
/// have no order.
#[test]
fn big_endian() {
    let mistake = Mistake::BigEndian;
    let machine = machine(3, &[0, 8]);
    let turned = |bytes: &[u8]| -> Vec<u8> {
        let elements = bytes.chunks(8);
        elements.flat_map(|own| own.iter().rev().copied()).collect()
    };
    let loaded = |bytes: &[u8]| {
        let mut wanted = machine.clone();
        wanted.set_za(0, bytes);
        wanted
    };
    let bytes = machine.memory[3..19].to_vec();
    right_and_mistaken(&machine, LOAD_8, mistake, &loaded(&bytes));
    mistaken_leaves(&machine, LOAD_8, mistake, &loaded(&turned(&bytes)));
    let stored = |bytes: &[u8]| {
        let mut wanted = machine.clone();
        wanted.memory[3..19].copy_from_slice(bytes);
        wanted
    };
    let bytes = machine.za(0);
    right_and_mistaken(&machine, STORE_8, mistake, &stored(&bytes));
    mistaken_leaves(&machine, STORE_8, mistake, &stored(&turned(&bytes)));
    let mut wanted = machine.clone();
    wanted.memory[3] = machine.za(0)[0];
    wanted.memory[11] = machine.za(0)[8];
    machine.clone().expect_done(0xE022_0020, &wanted);
    mistaken_leaves(&machine, 0xE022_0020, mistake, &wanted);
}

/// An older mistake on a wider store: the bytes of element 1 before the
/// first outside are written. A load that faults has no such mistake.
#[test]
fn wide_store_before_fault() {
    let machine = machine(53, &[0, 8]);
    let mut mistaken = machine.clone();
    let answer = mistaken.run_with(Mistake::StoreBeforeFault, STORE_8);
    assert_eq!(answer, (7, 64, 1));
    let mut left = machine.clone();
    left.memory[53..64].copy_from_slice(&machine.za(0)[..11]);
    assert!(mistaken == left);
    machine.expect_answer(Mistake::StoreBeforeFault, LOAD_8, (7, 64, 1));
}
