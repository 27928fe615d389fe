//! Short vectors in long buffers: a machine does within its vector length what one does whose buffers are for that
//! length alone, and leaves the bytes beyond it.

use sme_move::{encode, Direction, ElementSize, Fields, Machine, Operation, Settings};
use std::panic::{catch_unwind, AssertUnwindSafe};

const VECTOR_LENGTHS: [u64; 5] = [16, 32, 64, 128, 256];

const SIZES: [ElementSize; 5] = [
    ElementSize::Bits8,
    ElementSize::Bits16,
    ElementSize::Bits32,
    ElementSize::Bits64,
    ElementSize::Bits128,
];

/// Every vector length with every one that is not below it.
fn pairs() -> impl Iterator<Item = (u64, u64)> {
    let with = |bytes| VECTOR_LENGTHS.map(|largest| (bytes, largest));
    let all = VECTOR_LENGTHS.into_iter().flat_map(with);
    all.filter(|(bytes, largest)| bytes <= largest)
}

/// Bytes that differ from their neighbours.
fn fill(bytes: &mut [u8], first: usize) {
    for (number, byte) in bytes.iter_mut().enumerate() {
        *byte = ((number + first) * 7 % 251) as u8;
    }
}

/// A machine with memory for one vector. Bytes that count depend on the vector length alone; the others are this one.
fn machine(vector_bytes: u64, largest: u64, beyond: u8) -> Machine {
    let settings = Settings::within(vector_bytes, largest, 3).expect("these are allowed");
    let settings = settings.with_streaming(true).with_za(true);
    let mut memory = vec![0; vector_bytes as usize];
    fill(&mut memory, 50);
    let mut machine = Machine::new(settings, memory).expect("nothing is wrong");
    for buffer in [
        &mut machine.state.z,
        &mut machine.state.p,
        &mut machine.state.za,
    ] {
        buffer.fill(beyond);
    }
    for number in 0..32 {
        fill(machine.vector_mut(number), number);
    }
    for number in 0..16 {
        fill(machine.predicate_mut(number), 3 * number);
    }
    for number in 0..vector_bytes as usize {
        fill(machine.array_vector_mut(number), 100 + number);
    }
    machine.state.x[12] = 5;
    machine.state.x[8] = 9;
    machine
}

/// An operation of each kind, of this size and direction where the kind has them, by its numbers.
fn operations(size: ElementSize, direction: Direction) -> [Operation; 7] {
    let of_tile = Fields {
        element_bytes: size.bytes(),
        direction: direction.number(),
        tile: size.bytes() - 1,
        index: 12,
        ..Fields::default()
    };
    let of_array = |kind| Fields {
        kind,
        index: 8,
        vector: 20,
        registers: 4,
        ..Fields::default()
    };
    // Element 0 is active under predicate 3, whatever the size.
    let moved = |kind, predicate| Fields {
        kind,
        predicate,
        vector: 7,
        registers: 1,
        ..of_tile
    };
    let accessed = |kind| Fields {
        kind,
        predicate: 3,
        base: 1,
        offset_register: 31,
        ..of_tile
    };
    [
        moved(1, 3),
        moved(2, 0),
        of_array(3),
        of_array(4),
        accessed(5),
        moved(6, 3),
        accessed(7),
    ]
    .map(|fields| fields.operation().expect("it names an operation"))
}

fn all_operations() -> impl Iterator<Item = Operation> {
    let sized = |size| {
        let ways = [Direction::Horizontal, Direction::Vertical];
        ways.into_iter().flat_map(move |way| operations(size, way))
    };
    SIZES.into_iter().flat_map(sized)
}

/// What counts of a machine, each vector behind the other.
fn within(machine: &Machine) -> [Vec<u8>; 4] {
    let vectors = (0..machine.settings.vector_bytes as usize).map(|n| machine.array_vector(n));
    [
        (0..32).flat_map(|n| machine.vector(n)).copied().collect(),
        (0..16)
            .flat_map(|n| machine.predicate(n))
            .copied()
            .collect(),
        vectors.flatten().copied().collect(),
        machine.memory.clone(),
    ]
}

/// The buffers with all that counts set to zero.
fn beyond(machine: &Machine) -> [Vec<u8>; 3] {
    let mut machine = machine.clone();
    (0..32).for_each(|n| machine.vector_mut(n).fill(0));
    (0..16).for_each(|n| machine.predicate_mut(n).fill(0));
    (0..machine.settings.vector_bytes as usize).for_each(|n| machine.array_vector_mut(n).fill(0));
    [machine.state.z, machine.state.p, machine.state.za]
}

#[test]
fn each_kind_does_within_what_it_does_in_close_buffers() {
    for (vector_bytes, largest) in pairs() {
        for operation in all_operations() {
            let mut close = machine(vector_bytes, vector_bytes, 0);
            let before = within(&close);
            assert_eq!(close.execute_operation(operation), Ok(()));
            assert!(within(&close) != before, "{operation:?}");
            for byte in [0, 0xFF] {
                let mut long = machine(vector_bytes, largest, byte);
                let kept = beyond(&long);
                assert_eq!(long.execute_operation(operation), Ok(()));
                assert!(within(&long) == within(&close), "{operation:?}");
                assert!(beyond(&long) == kept, "{operation:?}");
            }
        }
    }
}

/// A move from a tile under a predicate of ones takes the whole slice to vector register 3.
#[test]
fn slices_are_those_that_the_unit_moves() {
    for (vector_bytes, largest) in pairs() {
        let mut before = machine(vector_bytes, largest, 0x5A);
        before.predicate_mut(0).fill(0xFF);
        for size in SIZES {
            let m = size.bytes();
            let last = vector_bytes as usize / usize::from(m) - 1;
            for (tile, slice) in [(0, 0), (m - 1, last), (m / 2, last / 2)] {
                for direction in [Direction::Horizontal, Direction::Vertical] {
                    let (offset, index, predicate, vector) = (0, 12, 0, 3);
                    let moved = Operation::MovaFromTile {
                        size,
                        direction,
                        tile,
                        offset,
                        index,
                        predicate,
                        vector,
                    };
                    let mut after = before.clone();
                    after.state.x[12] = slice as u64;
                    assert_eq!(after.execute_operation(moved), Ok(()));
                    let tile = tile.into();
                    let read = match direction {
                        Direction::Horizontal => {
                            before.horizontal_slice(size, tile, slice).to_vec()
                        }
                        Direction::Vertical => before.vertical_slice(size, tile, slice),
                    };
                    assert_eq!(after.vector(3), read);
                }
            }
        }
    }
}

/// What a state gives is as long as the buffers are laid out for, and begins with what counts.
#[test]
fn a_state_has_the_bytes_beyond_too() {
    let machine = machine(16, 64, 0xEE);
    let state = &machine.state;
    assert_eq!(
        [state.z.len(), state.p.len(), state.za.len()],
        [2048, 128, 4096]
    );
    for (whole, counts) in [
        (state.vector(31), machine.vector(31)),
        (state.predicate(15), machine.predicate(15)),
        (state.array_vector(15), machine.array_vector(15)),
        (
            state.horizontal_slice(ElementSize::Bits64, 5, 1),
            machine.horizontal_slice(ElementSize::Bits64, 5, 1),
        ),
    ] {
        assert_eq!(whole.len(), 4 * counts.len());
        assert_eq!(whole[..counts.len()], *counts);
        assert!(whole[counts.len()..].iter().all(|byte| *byte == 0xEE));
    }
    assert_eq!(state.array_vector(63), [0xEE; 64]);
}

fn panics<T>(call: impl FnOnce() -> T) -> bool {
    catch_unwind(AssertUnwindSafe(call)).is_err()
}

#[test]
fn there_is_no_more_than_counts() {
    let machine = machine(16, 64, 0);
    assert!(panics(|| machine.vector(32)));
    assert!(panics(|| machine.predicate(16)));
    assert!(!panics(|| machine.array_vector(15)) && panics(|| machine.array_vector(16)));
    for size in SIZES {
        let (m, slices) = (usize::from(size.bytes()), 16 / usize::from(size.bytes()));
        assert!(!panics(|| machine.vertical_slice(size, m - 1, slices - 1)));
        assert!(panics(|| machine.horizontal_slice(size, m, 0)));
        assert!(panics(|| machine.horizontal_slice(size, 0, slices)));
        assert!(panics(|| machine.vertical_slice(size, m, 0)));
        assert!(panics(|| machine.vertical_slice(size, 0, slices)));
    }
}

/// Lengths that do not go together, or not with the buffers, leave nothing to read.
#[test]
fn settings_that_do_not_fit_the_buffers_panic() {
    for (vector_bytes, largest) in [
        (64, 16),
        (16, 32),
        (16, 256),
        (48, 64),
        (64, 0),
        (1 << 59, 1 << 59),
    ] {
        let mut machine = machine(16, 64, 0);
        machine.settings.vector_bytes = vector_bytes;
        machine.settings.largest_vector_bytes = largest;
        assert!(panics(|| machine.vector(0)), "{vector_bytes}, {largest}");
        assert!(panics(|| machine.predicate(0)));
        assert!(panics(|| machine.array_vector(0)));
        assert!(panics(|| machine.vertical_slice(ElementSize::Bits8, 0, 0)));
    }
}

/// The vector length may change between words, as long as the buffers are long enough: a slice that was moved in at one
/// length is found at another where that has its bytes.
#[test]
fn the_vector_length_may_change_between_words() {
    let mut machine = machine(64, 64, 0);
    machine.state.p.fill(0xFF);
    machine.vector_mut(0).fill(7);
    machine.state.x[12] = 3;
    let word = encode(operations(ElementSize::Bits8, Direction::Horizontal)[0]);
    let word = word.expect("it has a word") & !(31 << 5);
    machine.settings.vector_bytes = 16;
    assert_eq!(machine.execute(word), Ok(()));
    machine.settings.vector_bytes = 64;
    let mut wanted = vec![0; 64];
    fill(&mut wanted, 103);
    wanted[..16].fill(7);
    assert_eq!(machine.array_vector(3), wanted);
}
