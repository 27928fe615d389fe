//! The answers of document 01, section 6: when each is given, and that the
//! lowest goes first.

use super::machine::{plain, Machine, DONE};
use crate::execute::Mistake;

/// A move, a store, one word of each instruction that request 1 added, and
/// loads and stores of other sizes with the same registers. All are done on
/// a good machine.
const WORDS: [u32; 9] = [
    0xC000_0000,
    0xE03F_03E0,
    0xC002_0000,
    0xC006_0800,
    0xC006_0E00,
    0xE0FF_03E0,
    0xE1FF_03E0,
    0xE01F_03E0,
    0xE09F_03E0,
];
/// The loads and stores among them.
const ACCESSES: [u32; 5] = [
    0xE03F_03E0,
    0xE0FF_03E0,
    0xE1FF_03E0,
    0xE01F_03E0,
    0xE09F_03E0,
];
/// A word that decodes at no level.
const NO_ENCODING: u32 = 0xC000_0010;

/// A machine on which nothing is wrong: loads and stores are at address 0.
fn good(vector_bytes: usize) -> Machine {
    let mut machine = Machine::new(vector_bytes);
    machine.memory = vec![1; 300];
    machine.set_all_active(0);
    machine.x[31] = 0;
    machine
}

/// Every word is refused with that number.
fn refused(machine: &Machine, answer: u32) {
    for word in WORDS {
        machine.expect_refused(word, answer);
    }
}

#[test]
fn good_machines_are_done() {
    for vector_bytes in [16, 32, 64, 128, 256] {
        for word in WORDS {
            assert_eq!(good(vector_bytes).run(word), DONE);
        }
    }
}

/// Answer 1: any other vector length, whichever largest length goes with it,
/// any level above 3. Numbers whose low byte or low half would be good are
/// among them. The largest length itself is in `long_answers`.
#[test]
fn bad_settings() {
    let mut machine = good(16);
    for vector_bytes in [0, 1, 15, 17, 24, 48, 255, 257, 512, 1 << 32 | 16, 1 << 63] {
        for largest in [16, 256, vector_bytes] {
            machine.settings.vector_bytes = vector_bytes;
            machine.settings.largest_vector_bytes = largest;
            refused(&machine, 1);
        }
    }
    machine.settings = good(16).settings;
    for level in [4, 255, 256, 257, 1 << 32 | 3, 1 << 63, u64::MAX] {
        machine.settings.level = level;
        refused(&machine, 1);
    }
}

/// Answer 2: each buffer one too short, one too long, and empty.
#[test]
fn wrong_lengths() {
    for vector_bytes in [16, 256] {
        let right = good(vector_bytes);
        let resize = |length: usize| [length - 1, length + 1, 0];
        for length in resize(32) {
            let mut machine = right.clone();
            machine.x.resize(length, 0);
            refused(&machine, 2);
        }
        for length in resize(32 * vector_bytes) {
            let mut machine = right.clone();
            machine.z.resize(length, 0);
            refused(&machine, 2);
        }
        for length in resize(2 * vector_bytes) {
            let mut machine = right.clone();
            machine.p.resize(length, 0);
            refused(&machine, 2);
        }
        for length in resize(vector_bytes * vector_bytes) {
            let mut machine = right.clone();
            machine.za.resize(length, 0);
            refused(&machine, 2);
        }
    }
}

/// Answer 2: memory may end at 2^64 and not beyond; empty memory may stand
/// anywhere.
#[test]
fn memory_ends_at_the_last_address() {
    let mut machine = good(16);
    machine.settings.memory_address = u64::MAX - 299;
    machine.x[31] = u64::MAX - 15;
    for word in WORDS {
        assert_eq!(machine.clone().run(word), DONE);
    }
    machine.settings.memory_address += 1;
    refused(&machine, 2);
    machine.memory.clear();
    machine.settings.memory_address = u64::MAX;
    assert_eq!(machine.clone().run(WORDS[0]), DONE);
    for word in ACCESSES {
        machine.expect_fault(word, u64::MAX - 15, 0);
    }
}

/// The lowest number that applies: from the highest cause down, each new
/// one takes over. With the stack check off a misaligned stack pointer is no
/// cause.
#[test]
fn the_lowest_number_is_given() {
    let off = ACCESSES.map(|word| (word, false, (7, (1 << 40) + 8, 0)));
    let on = ACCESSES.map(|word| (word, true, plain(6)));
    for (word, stack_check, misaligned) in off.into_iter().chain(on) {
        let mut machine = good(16);
        machine.settings.stack_check = stack_check;
        machine.x[31] = 1 << 40;
        machine.expect_fault(word, 1 << 40, 0);
        machine.x[31] += 8;
        machine.expect_answer(Mistake::None, word, misaligned);
        machine.settings.za_on = false;
        machine.expect_refused(word, 5);
        machine.settings.streaming = false;
        machine.expect_refused(word, 4);
        machine.expect_refused(NO_ENCODING, 3);
        machine.settings.level = 0;
        machine.expect_refused(word, 3);
        machine.za.pop();
        machine.expect_refused(word, 2);
        machine.settings.vector_bytes = 0;
        machine.expect_refused(word, 1);
    }
}

/// Answer 7 carries the lowest-numbered element outside and its address,
/// which need not be the lowest address, nor that of element 0.
#[test]
fn the_lowest_element_outside_and_its_address() {
    let mut machine = Machine::new(16);
    machine.settings.memory_address = 0x2000;
    machine.x[1] = 0x2000 + 60;
    machine.x[2] = 0;
    machine.set_predicate(0, [1, 2, 3, 6, 9]);
    machine.expect_fault(0xE022_0020, 0x2042, 6);
    machine.x[1] = u64::MAX - 1;
    machine.expect_fault(0xE022_0020, u64::MAX, 1);
}
