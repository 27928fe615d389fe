//! Worked examples of the element that answer 7 carries (request 6, which
//! amends document 01, section 6). Example 10 itself is in `examples`, and
//! `addresses` has more.

use super::machine::{Machine, DONE};
use super::slices::{SIZES, VERTICAL};

/// What makes a load a store.
const STORE: u32 = 0x0020_0000;

/// A load, of a row if not said otherwise, which is also run as a store: base
/// X1, offset register X2, P0, and W12 at 6. Memory has 64 bytes.
struct Example {
    load: u32,
    vector_bytes: usize,
    memory_address: u64,
    base: u64,
    offset: u64,
    /// The active elements, of `m` bytes.
    m: usize,
    active: &'static [usize],
}

impl Example {
    fn machine(&self) -> Machine {
        let mut machine = Machine::new(self.vector_bytes);
        machine.settings.memory_address = self.memory_address;
        machine.set_w(12, 6);
        (machine.x[1], machine.x[2]) = (self.base, self.offset);
        machine.set_predicate(0, self.active.iter().map(|e| e * self.m));
        machine
    }

    /// Refused with 7 for that element.
    fn faults(&self, address: u64, element: u64) {
        for word in [self.load, self.load | STORE] {
            self.machine().expect_fault(word, address, element);
        }
    }

    fn done(&self) {
        for word in [self.load, self.load | STORE] {
            assert_eq!(self.machine().run(word), DONE, "{word:08X}");
        }
    }
}

/// The examples of request 2: m=4, tile 1, offset 1. Element e starts at
/// 103A + 4e, and memory ends at 1040.
#[test]
fn the_examples_of_four_bytes() {
    let with_active = |active| Example {
        load: 0xE082_0025,
        vector_bytes: 16,
        memory_address: 0x1000,
        base: 0x1032,
        offset: 2,
        m: 4,
        active,
    };
    with_active(&[0, 1, 2, 3]).faults(0x1040, 1);
    with_active(&[0, 2]).faults(0x1042, 2);
    with_active(&[3]).faults(0x1046, 3);
    with_active(&[0]).done();
}

/// The other examples of request 2: m=8, tile 3, offset 0. Element 0 is on both
/// sides of 2^64. So is element 3 where the base is three elements lower.
#[test]
fn the_examples_of_an_element_over_2_to_the_64() {
    let at = |vector_bytes, memory_address, base, active| Example {
        load: 0xE0C2_0026,
        vector_bytes,
        memory_address,
        base,
        offset: 1 << 61,
        m: 8,
        active,
    };
    let (low, high) = (0, u64::MAX - 63);
    at(16, low, u64::MAX - 3, &[0, 1]).faults(0xFFFF_FFFF_FFFF_FFFC, 0);
    at(16, high, u64::MAX - 3, &[0, 1]).faults(0, 0);
    at(64, low, u64::MAX - 27, &[3, 4]).faults(0xFFFF_FFFF_FFFF_FFFC, 3);
    at(64, high, u64::MAX - 27, &[0, 1, 2, 3, 4]).faults(0, 3);
    at(64, high, u64::MAX - 27, &[0, 4, 5]).faults(4, 4);
    at(64, low, u64::MAX - 27, &[4, 5]).done();
}

/// Example 10 with other active elements: element e is at e - 4.
#[test]
fn example_10_from_another_element_on() {
    let with_active = |active| Example {
        load: 0xE002_0020,
        vector_bytes: 16,
        memory_address: 0,
        base: u64::MAX - 7,
        offset: 4,
        m: 1,
        active,
    };
    with_active(&[0, 15]).faults(0xFFFF_FFFF_FFFF_FFFC, 0);
    with_active(&[2, 3, 4]).faults(0xFFFF_FFFF_FFFF_FFFE, 2);
    with_active(&[3, 15]).faults(0xFFFF_FFFF_FFFF_FFFF, 3);
    with_active(&[4, 15]).done();
}

/// Bytes from 60 on, and memory ends at 64: elements 1 to 3 are in it, and 6
/// is the first active one that is not.
#[test]
fn not_the_first_active_element() {
    let example = Example {
        load: 0xE002_0020,
        vector_bytes: 16,
        memory_address: 0,
        base: 60,
        offset: 0,
        m: 1,
        active: &[1, 2, 3, 6, 9],
    };
    example.faults(66, 6);
}

/// Element e of two bytes is at 2FF5 + 2e, and memory begins at 3000: element 5
/// has byte 1 in it and byte 0 not.
#[test]
fn an_element_over_the_start_of_memory() {
    let with_active = |active| Example {
        load: 0xE042_0020,
        vector_bytes: 16,
        memory_address: 0x3000,
        base: 0x2FF5,
        offset: 0,
        m: 2,
        active,
    };
    with_active(&[5, 6, 7]).faults(0x2FFF, 5);
    with_active(&[2, 5, 7]).faults(0x2FF9, 2);
    with_active(&[6, 7]).done();
}

/// Eight elements of eight bytes from 2013 on: element 5 is at 203B and has its
/// byte 5 behind memory. Sixteen of sixteen bytes from 1F4C on: element 11 is
/// at 1FFC and 15 at 203C, and only those between are in memory.
#[test]
fn wide_elements() {
    let eight = Example {
        load: 0xE0C2_0020,
        vector_bytes: 64,
        memory_address: 0x2000,
        base: 0x2013,
        offset: 0,
        m: 8,
        active: &[1, 5, 7],
    };
    eight.faults(0x2040, 5);
    let sixteen = |active| Example {
        load: 0xE1C2_0020,
        vector_bytes: 256,
        memory_address: 0x2000,
        base: 0x1F4C,
        offset: 0,
        m: 16,
        active,
    };
    sixteen(&[11, 12, 13]).faults(0x1FFC, 11);
    sixteen(&[12, 13, 14, 15]).faults(0x2040, 15);
    sixteen(&[12, 14]).done();
}

/// Column 6 of tile 3 of eight bytes: element 6 is in vector 51, and at 58 in
/// memory, with its bytes 6 and 7 behind it.
#[test]
fn a_column() {
    let example = Example {
        load: 0xE0C2_8026,
        vector_bytes: 64,
        memory_address: 0,
        base: 10,
        offset: 0,
        m: 8,
        active: &[0, 2, 6, 7],
    };
    example.faults(64, 6);
}

/// What the offset register adds does not count: it is 14 elements, and memory
/// ends with the second that is stored.
#[test]
fn the_offset_register_does_not_count() {
    let example = Example {
        load: 0xE082_0020,
        vector_bytes: 16,
        memory_address: 0x1000,
        base: 0x1000,
        offset: 14,
        m: 4,
        active: &[0, 1, 2, 3],
    };
    example.faults(0x1040, 2);
}

/// Every element of every size, both ways, at every vector length, and every
/// byte of it: memory ends right before, and all elements are active.
#[test]
fn every_element() {
    for vector_bytes in [16, 32, 64, 128, 256] {
        let mut machine = Machine::new(vector_bytes);
        machine.set_all_active(0);
        (machine.x[1], machine.x[2]) = (0x7000, 0);
        for outside in 0..vector_bytes {
            machine.set_memory(0x7000, outside);
            for (m, load, store) in SIZES {
                for word in [load, store, load | VERTICAL, store | VERTICAL] {
                    let element = (outside / m) as u64;
                    machine.expect_fault(word, 0x7000 + outside as u64, element);
                }
            }
        }
    }
}

/// In buffers for longer vectors, all bits set: nothing is counted beyond B.
#[test]
fn in_long_buffers() {
    let mut machine = Machine::in_long_buffers(16, 64);
    machine.p.fill(0xFF);
    (machine.x[1], machine.x[2]) = (50, 0);
    for bit in [0, VERTICAL] {
        machine.expect_fault(0xE002_0020 | bit, 64, 14);
        machine.expect_fault(0xE082_0020 | bit, 64, 3);
        machine.expect_fault(0xE1C2_0020 | bit, 64, 0);
    }
}

/// Where 7 would carry element 5, every other answer carries none.
#[test]
fn every_other_answer_carries_none() {
    let word = 0xE03F_03E0;
    let mut machine = Machine::new(16);
    machine.set_memory(0x1000, 21);
    machine.set_all_active(0);
    machine.x[31] = 0x1010;
    machine.expect_fault(word, 0x1015, 5);
    let mut misaligned = machine.clone();
    misaligned.x[31] = 0x1011;
    misaligned.expect_refused(word, 6);
    machine.settings.za_on = false;
    machine.expect_refused(word, 5);
    machine.settings.streaming = false;
    machine.expect_refused(word, 4);
    machine.settings.level = 0;
    machine.expect_refused(word, 3);
    machine.za.pop();
    machine.expect_refused(word, 2);
    machine.settings.vector_bytes = 0;
    machine.expect_refused(word, 1);
}
