//! What answer 7 carries: the lowest-numbered active element with a byte outside memory, and the address of that
//! element's first such byte.

use sme_move::{encode_fields, Fields, Kind, Machine, Refusal, Settings};

const VECTOR_LENGTHS: [u64; 5] = [16, 32, 64, 128, 256];

/// Memory's address, where it lies neither at address 0 nor at the end of all addresses.
const START: u64 = 0x1000;

/// A load or store of a slice.
#[derive(Clone, Copy, Debug)]
struct Access {
    element_bytes: u64,
    word: u32,
}

/// One of each element size, direction and kind, by base register 1 and offset register 2.
fn accesses() -> Vec<Access> {
    let mut accesses = Vec::new();
    for element_bytes in [1, 2, 4, 8, 16] {
        for (kind, direction) in [
            (Kind::Ld1, 0),
            (Kind::Ld1, 1),
            (Kind::St1, 0),
            (Kind::St1, 1),
        ] {
            let fields = Fields {
                kind: kind.number(),
                element_bytes,
                direction,
                tile: element_bytes - 1,
                index: 12,
                base: 1,
                offset_register: 2,
                ..Fields::default()
            };
            accesses.push(Access {
                element_bytes: u64::from(element_bytes),
                word: encode_fields(fields).expect("it has a word"),
            });
        }
    }
    accesses
}

/// A machine on, in buffers for the longest vectors, with so much memory from this address on.
fn machine(vector_bytes: u64, start: u64, memory_bytes: u64) -> Machine {
    let settings = Settings::within(vector_bytes, 256, 1).expect("these are allowed");
    let on = settings.with_streaming(true).with_za(true);
    let memory = vec![0xEE; memory_bytes as usize];
    let mut machine = Machine::new(on.with_memory_address(start), memory).expect("it fits");
    for (number, byte) in machine.state.za.iter_mut().enumerate() {
        *byte = (number * 7 % 251 + 1) as u8;
    }
    machine
}

/// Asserts that the machine refuses the access, whose element 0 starts at this address, with that element and byte, and
/// that nothing changes. Of the others than the active elements, every bit but the one that counts is 1.
fn faults(
    machine: &mut Machine,
    access: Access,
    first: u64,
    active: &[u64],
    element: u64,
    address: u64,
) {
    let bytes = access.element_bytes;
    for (number, byte) in machine.predicate_mut(0).iter_mut().enumerate() {
        let is_one = |bit: &u64| {
            let bit = 8 * number as u64 + bit;
            !bit.is_multiple_of(bytes) || active.contains(&(bit / bytes))
        };
        *byte = (0..8).filter(is_one).map(|bit| 1 << bit).sum();
    }
    // The offset counts elements, so the base is three of them before element 0.
    machine.state.x[1] = first.wrapping_sub(3 * bytes);
    machine.state.x[2] = 3;
    let before = machine.clone();
    let refusal = Refusal::OutsideMemory { address, element };
    assert_eq!(machine.execute(access.word), Err(refusal), "{access:X?}");
    assert!(*machine == before);
}

/// Memory ends before each byte of a slice in turn, all of whose elements are active.
#[test]
fn every_byte_of_every_element_can_be_the_first_outside() {
    for vector_bytes in VECTOR_LENGTHS {
        let all: Vec<u64> = (0..vector_bytes).collect();
        for inside in 0..vector_bytes {
            let mut machine = machine(vector_bytes, START, inside);
            for access in accesses() {
                let element = inside / access.element_bytes;
                let address = START + inside;
                faults(&mut machine, access, START, &all, element, address);
            }
        }
    }
}

/// Element 1 is active and in memory. Element 2 is not in memory and not active. So it is element 3 that is told, from
/// the byte on that memory ends before.
#[test]
fn neither_the_first_active_element_nor_the_first_outside_is_meant() {
    for vector_bytes in VECTOR_LENGTHS {
        for access in accesses() {
            let (bytes, elements) = (access.element_bytes, vector_bytes / access.element_bytes);
            for inside in (2 * bytes..4 * bytes).filter(|_| elements >= 4) {
                let mut machine = machine(vector_bytes, START, inside);
                let address = START + inside.max(3 * bytes);
                let active = [1, 3, elements - 1];
                faults(&mut machine, access, START, &active, 3, address);
            }
        }
    }
}

/// A slice begins below memory: element 0 lies there, and is not active; element 1 has this many bytes there, and its
/// first one is told, although others of it are in memory.
#[test]
fn an_element_can_begin_below_memory() {
    for access in accesses() {
        for below in 1..=access.element_bytes {
            let mut machine = machine(64, START, 64);
            let first = START - access.element_bytes - below;
            faults(&mut machine, access, first, &[1, 2], 1, START - below);
        }
    }
}

/// Memory reaches up to 2^64: of element 1 the bytes that lie there are in memory, and the next one has address 0.
#[test]
fn an_element_can_go_beyond_the_last_address() {
    for access in accesses() {
        for inside in 0..access.element_bytes {
            let mut machine = machine(64, 0_u64.wrapping_sub(64), 64);
            let first = 0_u64.wrapping_sub(access.element_bytes + inside);
            faults(&mut machine, access, first, &[0, 1, 2], 1, 0);
        }
    }
}

/// Memory begins at address 0: of element 1 the bytes before 2^64 are outside, and those after it are in memory.
#[test]
fn an_element_can_begin_before_the_last_address() {
    for access in accesses() {
        for below in 1..=access.element_bytes {
            let mut machine = machine(64, 0, 64);
            let address = 0_u64.wrapping_sub(below);
            let first = address.wrapping_sub(access.element_bytes);
            faults(&mut machine, access, first, &[1, 3], 1, address);
        }
    }
}
