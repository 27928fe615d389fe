//! The mistakes about the element that answer 7 carries. Each test states what
//! is right by request 6, and which element the mistake has: that and nothing
//! more.

use super::access_mistakes::machine;
use super::long_states::{state, words};
use super::machine::{plain, Machine, DONE};
use super::slices::VERTICAL;
use crate::execute::Mistake;
use crate::inputs::random::Random;

/// The mistakes that these tests are about.
const MISTAKES: [Mistake; 8] = [
    Mistake::ElementAsByteOfSlice,
    Mistake::ElementAsByte,
    Mistake::ElementAsVector,
    Mistake::ElementFirstActive,
    Mistake::ElementAmongActive,
    Mistake::ElementInactive,
    Mistake::ElementLowestInMemory,
    Mistake::ElementLeftOver,
];

const LOAD_2: u32 = 0xE042_0020;
const STORE_2: u32 = 0xE062_0020;
/// Of tile 3.
const LOAD_8: u32 = 0xE0C2_0026;
const STORE_8: u32 = 0xE0E2_0026;

/// Both words fault there for element `right`; with the mistake it is another.
fn told(machine: &Machine, words: [u32; 2], address: u64, right: u64, wrong: (Mistake, u64)) {
    let (mistake, element) = wrong;
    for word in words {
        machine.expect_fault(word, address, right);
        machine.expect_answer(mistake, word, (7, address, element));
    }
}

/// Element 1 of eight bytes is at 61 and leaves memory with its byte 3, which
/// is byte 11 of the slice.
#[test]
fn numbers_of_bytes() {
    let machine = machine(53, &[0, 8]);
    for wrong in [
        (Mistake::ElementAsByteOfSlice, 11),
        (Mistake::ElementAsByte, 3),
    ] {
        told(&machine, [LOAD_8, STORE_8], 64, 1, wrong);
    }
}

/// The same: in a column of tile 3 it is in vector 11. A row is not numbered
/// by vectors.
#[test]
fn numbers_of_vectors() {
    let machine = machine(53, &[0, 8]);
    let mistake = Mistake::ElementAsVector;
    let columns = [LOAD_8 | VERTICAL, STORE_8 | VERTICAL];
    told(&machine, columns, 64, 1, (mistake, 11));
    told(&machine, [LOAD_8, STORE_8], 64, 1, (mistake, 1));
}

/// Elements 1, 3, 5 and 7 of two bytes are active, and 5 is at 64: it is
/// number 2 of them, and 1 is the first.
#[test]
fn numbers_among_the_active_ones() {
    let machine = machine(54, &[2, 6, 10, 14]);
    for wrong in [
        (Mistake::ElementFirstActive, 1),
        (Mistake::ElementAmongActive, 2),
    ] {
        told(&machine, [LOAD_2, STORE_2], 64, 5, wrong);
    }
}

/// Element 6 of two bytes is at 64 and inactive, 7 is at 66 and active.
#[test]
fn an_inactive_element() {
    let machine = machine(52, &[2, 10, 14]);
    let wrong = (Mistake::ElementInactive, 6);
    told(&machine, [LOAD_2, STORE_2], 66, 7, wrong);
}

/// All elements are outside. The first is at 2^64 - 8, and 4 at address 0.
#[test]
fn the_lowest_address() {
    let mut machine = machine(u64::MAX - 7, &[0, 2, 4, 6, 8, 10, 12, 14]);
    machine.settings.memory_address = 0x1000;
    let wrong = (Mistake::ElementLowestInMemory, 4);
    told(&machine, [LOAD_2, STORE_2], u64::MAX - 7, 0, wrong);
}

/// Element 3 is there with an answer that is not 7, and with done.
#[test]
fn an_element_that_is_left_over() {
    let mistake = Mistake::ElementLeftOver;
    let mut machine = machine(54, &[2, 6, 10, 14]);
    told(&machine, [LOAD_2, STORE_2], 64, 5, (mistake, 5));
    machine.settings.za_on = false;
    machine.expect_answer(Mistake::None, LOAD_2, plain(5));
    machine.expect_answer(mistake, LOAD_2, (5, 0, 3));
    machine.settings.za_on = true;
    machine.x[1] = 0;
    assert_eq!(machine.clone().run(LOAD_2), DONE);
    assert_eq!(machine.run_with(mistake, LOAD_2), (0, 0, 3));
}

/// None changes the number, the address or a byte, and what is refused before
/// or done has its element but for one of them.
#[test]
fn none_changes_anything_else() {
    let mut random = Random::new(90);
    for vector_bytes in [16, 64, 256] {
        for word in words(&mut random) {
            let mut machine = state(vector_bytes, word, &mut random);
            for length in [machine.memory.len(), vector_bytes / 2] {
                machine.memory.truncate(length);
                let mut right = machine.clone();
                let (number, address, _) = right.run(word);
                for mistake in MISTAKES {
                    let mut mistaken = machine.clone();
                    let found = mistaken.run_with(mistake, word);
                    assert_eq!((found.0, found.1), (number, address), "{mistake:?}");
                    assert!(mistaken == right, "{mistake:?} left another state");
                    let left_over = mistake == Mistake::ElementLeftOver;
                    assert!(number == 7 || left_over || found == plain(number));
                }
            }
        }
    }
}
