//! The mistakes that show only in long memory. Memory may have any length
//! (document 01, section 2), so each test states that the access is done as
//! in short memory, and what the mistake makes of it.

use super::access_mistakes::mistaken_leaves;
use super::machine::{plain, Answer, Machine};
use super::mistakes::right_and_mistaken;
use crate::execute::Mistake;

const LOAD_4: u32 = 0xE082_0020;
const STORE_4: u32 = 0xE0A2_0020;
/// Moves vector register 0 to row 0 of the byte tile.
const MOVE: u32 = 0xC000_0000;

/// Slice 0, every element active, base X1, offset register X2 at 0. No byte
/// of memory is as the one 65,536 bytes further.
fn machine(length: usize, base: u64) -> Machine {
    let mut machine = Machine::new(16);
    machine.set_memory(0, length);
    for (number, byte) in machine.memory.iter_mut().enumerate() {
        *byte = byte.wrapping_add((number / 65_536) as u8);
    }
    machine.set_w(12, 0);
    machine.set_all_active(0);
    (machine.x[1], machine.x[2]) = (base, 0);
    machine
}

/// What a load of row 0 from the byte of this number on leaves.
fn loaded(machine: &Machine, first: usize) -> Machine {
    let mut wanted = machine.clone();
    wanted.set_za(0, &machine.memory[first..first + 16]);
    wanted
}

/// What a store of row 0 leaves.
fn stored(machine: &Machine, first: usize) -> Machine {
    let mut wanted = machine.clone();
    wanted.memory[first..first + 16].copy_from_slice(&machine.za(0));
    wanted
}

/// The mistaken word is done as it should be.
pub fn both_right(machine: &Machine, word: u32, mistake: Mistake, wanted: &Machine) {
    machine.clone().expect_done(word, wanted);
    mistaken_leaves(machine, word, mistake, wanted);
}

/// The word is done and leaves `wanted`; with the mistake it is refused.
fn refused(machine: &Machine, word: u32, mistake: Mistake, wanted: &Machine, answer: Answer) {
    right_and_mistaken(machine, word, mistake, wanted);
    machine.expect_answer(mistake, word, answer);
}

/// 4,096 bytes pass and 4,097 do not, though the word may not even look.
#[test]
fn long_memory_refused() {
    let mistake = Mistake::LongMemoryRefused;
    for length in [4096, 4097, 65_536] {
        let machine = machine(length, 9);
        let mut moved = machine.clone();
        moved.set_za(0, &machine.z(0));
        for (word, wanted) in [
            (MOVE, moved),
            (LOAD_4, loaded(&machine, 9)),
            (STORE_4, stored(&machine, 9)),
        ] {
            if length == 4096 {
                both_right(&machine, word, mistake, &wanted);
            } else {
                refused(&machine, word, mistake, &wanted, plain(2));
            }
        }
    }
}

/// The byte before number 1,024 is found, and that one is not.
#[test]
fn far_bytes_outside() {
    let mistake = Mistake::FarBytesOutside;
    for length in [1024, 1025, 70_000] {
        let machine = machine(length, 1008);
        both_right(&machine, LOAD_4, mistake, &loaded(&machine, 1008));
        both_right(&machine, STORE_4, mistake, &stored(&machine, 1008));
    }
    let machine = machine(1025, 1009);
    let answer = (7, 1024, 3);
    refused(&machine, LOAD_4, mistake, &loaded(&machine, 1009), answer);
    refused(&machine, STORE_4, mistake, &stored(&machine, 1009), answer);
}

/// Of 65,536 bytes and 40 only the 40 are found.
#[test]
fn memory_length_in_16_bits() {
    let mistake = Mistake::MemoryLengthIn16Bits;
    let at_24 = machine(65_536 + 40, 24);
    both_right(&at_24, LOAD_4, mistake, &loaded(&at_24, 24));
    both_right(&at_24, STORE_4, mistake, &stored(&at_24, 24));
    let at_25 = machine(65_536 + 40, 25);
    refused(&at_25, LOAD_4, mistake, &loaded(&at_25, 25), (7, 40, 3));
    refused(&at_25, STORE_4, mistake, &stored(&at_25, 25), (7, 40, 3));
    let longest = machine(65_535, 65_519);
    both_right(&longest, LOAD_4, mistake, &loaded(&longest, 65_519));
}

/// Bytes 65,541 to 65,556 are looked for at 5 to 20. Past the end they are
/// outside all the same.
#[test]
fn memory_offset_in_16_bits() {
    let mistake = Mistake::MemoryOffsetIn16Bits;
    let far = machine(65_536 + 21, 65_541);
    right_and_mistaken(&far, LOAD_4, mistake, &loaded(&far, 65_541));
    mistaken_leaves(&far, LOAD_4, mistake, &loaded(&far, 5));
    right_and_mistaken(&far, STORE_4, mistake, &stored(&far, 65_541));
    mistaken_leaves(&far, STORE_4, mistake, &stored(&far, 5));
    let near = machine(65_536 + 21, 65_520);
    both_right(&near, STORE_4, mistake, &stored(&near, 65_520));
    let over = machine(65_536 + 20, 65_541);
    over.expect_fault(STORE_4, 65_556, 3);
    over.expect_answer(mistake, STORE_4, (7, 65_556, 3));
}
