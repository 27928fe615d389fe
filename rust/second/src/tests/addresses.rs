//! Worked examples of our own for the addresses of loads and stores: the
//! ends of memory, the end of all addresses, and what answer 7 carries
//! (sections 5 and 6 as requests 2 and 6 amend them).

use super::machine::Machine;
use super::slices::{SIZES, VERTICAL};

/// A machine with all of P0 active, slice 0, base X1 and offset register X2.
fn machine(vector_bytes: usize, base: u64, offset: u64) -> Machine {
    let mut machine = Machine::new(vector_bytes);
    machine.set_w(12, 0);
    machine.set_all_active(0);
    (machine.x[1], machine.x[2]) = (base, offset);
    machine
}

/// The same with other active elements, of m bytes.
fn with_active(machine: &Machine, m: usize, elements: &[usize]) -> Machine {
    let mut other = machine.clone();
    other.p.fill(0);
    other.set_predicate(0, elements.iter().map(|e| e * m));
    other
}

/// Load and store of that size, of rows and of columns, fault at `address` for
/// element e, and change nothing.
fn fault(machine: &Machine, m: usize, address: u64, e: usize) {
    for (_, load, store) in SIZES.into_iter().filter(|size| size.0 == m) {
        for bit in [0, VERTICAL] {
            machine.expect_fault(load | bit, address, e as u64);
            machine.expect_fault(store | bit, address, e as u64);
        }
    }
}

/// Load and store of that size are done: element e of vector 0 is at byte
/// `first` of memory, and no other element is active.
fn done(machine: &Machine, m: usize, e: usize, first: usize) {
    let machine = with_active(machine, m, &[e]);
    for (_, load, store) in SIZES.into_iter().filter(|size| size.0 == m) {
        let element = machine.za(0)[e * m..e * m + m].to_vec();
        let mut wanted = machine.clone();
        wanted.memory[first..first + m].copy_from_slice(&element);
        machine.clone().expect_done(store, &wanted);
        let mut wanted = machine.clone();
        wanted.set_za(0, &vec![0; machine.vector_bytes()]);
        wanted.set_za_part(0, e * m, &machine.memory[first..first + m]);
        machine.clone().expect_done(load, &wanted);
    }
}

/// Memory ends at 0x2040. Element 2 of four bytes is at 0x203E and has its
/// byte 2 outside; elements 0 and 1 are wholly inside.
#[test]
fn an_element_over_the_end_of_memory() {
    let mut machine = machine(16, 0x2036, 0);
    machine.settings.memory_address = 0x2000;
    fault(&machine, 4, 0x2040, 2);
    fault(&with_active(&machine, 4, &[2]), 4, 0x2040, 2);
    fault(&with_active(&machine, 4, &[3]), 4, 0x2042, 3);
    done(&machine, 4, 0, 0x36);
    done(&machine, 4, 1, 0x3A);
}

/// The first byte outside, for every size and every place in it: memory
/// ends i bytes after the start of the last element.
#[test]
fn every_byte_of_the_last_element() {
    for (m, _, _) in SIZES {
        for i in 0..m {
            let mut machine = machine(32, 0x1_0001, 0);
            machine.set_memory(0x1_0000, 1 + 32 - m + i);
            let last = 32 / m - 1;
            fault(&machine, m, 0x1_0001 + 32 - (m - i) as u64, last);
            machine.set_memory(0x1_0000, 1 + 32);
            done(&machine, m, last, 1 + 32 - m);
        }
    }
}

/// Memory begins at 0x2000, and element 0 of eight bytes at 0x1FFD: its
/// bytes 0 to 2 are outside, and byte 0 is told.
#[test]
fn an_element_over_the_start_of_memory() {
    let mut machine = machine(16, 0x1FFD, 0);
    machine.settings.memory_address = 0x2000;
    fault(&machine, 8, 0x1FFD, 0);
    done(&machine, 8, 1, 5);
}

/// Element 1 of eight bytes is at 2^64 - 4 and ends at address 3. With
/// memory at address 0 its byte 0 is outside; with memory up to 2^64 its
/// byte 4 is, which has address 0.
#[test]
fn an_element_over_the_last_address() {
    let mut low = machine(32, u64::MAX - 11, 0);
    fault(&low, 8, u64::MAX - 11, 0);
    fault(&with_active(&low, 8, &[1, 2]), 8, u64::MAX - 3, 1);
    done(&low, 8, 2, 4);
    done(&low, 8, 3, 12);
    low.settings.memory_address = u64::MAX - 63;
    let high = low;
    fault(&high, 8, 0, 1);
    fault(&with_active(&high, 8, &[1, 3]), 8, 0, 1);
    fault(&with_active(&high, 8, &[2]), 8, 4, 2);
    done(&high, 8, 0, 52);
}

/// Memory at address 0, at its first byte, and memory that ends at 2^64, at
/// its last bytes, for every size. One byte further the last byte of the
/// element has address 0.
#[test]
fn memory_at_both_ends_of_all_addresses() {
    for (m, _, _) in SIZES {
        let mut machine = machine(16, 0, 0);
        done(&machine, m, 0, 0);
        machine.settings.memory_address = u64::MAX - 63;
        machine.x[1] = u64::MAX - 15;
        let last = 16 / m - 1;
        done(&machine, m, last, 64 - m);
        machine.x[1] += 1;
        fault(&with_active(&machine, m, &[last]), m, 0, last);
    }
}

/// Elements 1, 3, 5 and 7 of two bytes are active; 5 and 7 are outside. The
/// lowest of them is told, which is neither the first active element nor,
/// where addresses wrap, the lowest address.
#[test]
fn the_lowest_element_outside() {
    let low = with_active(&machine(16, 54, 0), 2, &[1, 3, 5, 7]);
    fault(&low, 2, 64, 5);
    let mut high = with_active(&machine(16, u64::MAX - 8, 0), 2, &[1, 3, 5, 7]);
    high.settings.memory_address = u64::MAX - 63;
    // Element 3 is at 2^64 - 3, element 5 at 1.
    fault(&high, 2, 1, 5);
    high.memory.truncate(60);
    fault(&high, 2, u64::MAX - 2, 3);
}

/// The offset register and the element number are both multiplied by m, and
/// the product wraps at 2^64 as well.
#[test]
fn the_offset_is_scaled_and_wraps() {
    for (m, _, _) in SIZES {
        let size = m as u64;
        done(&machine(16, 5, 2), m, 0, 5 + 2 * m);
        // Minus one element.
        done(&machine(16, 5 + size, u64::MAX), m, 0, 5);
        // Minus n elements, from behind the last.
        let back = (16 / size).wrapping_neg();
        done(&machine(16, 20, back), m, 16 / m - 1, 20 - m);
        if m > 1 {
            // 2^64 / m elements lead back to the base, and so do m - 1
            // times as many.
            let round = 1 << (64 - m.ilog2());
            done(&machine(16, 9, round), m, 0, 9);
            done(&machine(16, 9, (size - 1) * round), m, 0, 9);
        }
    }
}
