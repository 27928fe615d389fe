//! Registers, vectors of the array and slices of tiles are read where the unit has them.

use sme_move::{encode, Direction, ElementSize, Operation, Settings, State};
use std::panic::{catch_unwind, AssertUnwindSafe};

const VECTOR_LENGTHS: [u64; 5] = [16, 32, 64, 128, 256];

const SIZES: [ElementSize; 5] = [
    ElementSize::Bits8,
    ElementSize::Bits16,
    ElementSize::Bits32,
    ElementSize::Bits64,
    ElementSize::Bits128,
];

fn settings(vector_bytes: u64) -> Settings {
    let settings = Settings::new(vector_bytes, 3).expect("this length is allowed");
    settings.with_streaming(true).with_za(true)
}

/// Every byte of a buffer is another than its neighbours', and every element active.
fn state(vector_bytes: u64) -> State {
    let mut state = State::new(settings(vector_bytes)).expect("this length is allowed");
    for (number, byte) in state.za.iter_mut().chain(&mut state.z).enumerate() {
        *byte = (number * 7 % 251) as u8;
    }
    state.p.fill(0xFF);
    state
}

fn panics<T>(call: impl FnOnce() -> T) -> bool {
    catch_unwind(AssertUnwindSafe(call)).is_err()
}

/// The slice as the unit takes it to vector register 3.
fn moved(state: &State, direction: Direction, size: ElementSize, tile: u8, slice: usize) -> State {
    let mut state = state.clone();
    state.x[12] = slice as u64;
    let operation = Operation::MovaFromTile {
        size,
        direction,
        tile,
        offset: 0,
        index: 12,
        predicate: 0,
        vector: 3,
    };
    let word = encode(operation).expect("it has a word");
    let settings = settings(state.vector(0).len() as u64);
    let done = state.execute(settings, word, &mut []);
    done.expect("nothing is wrong");
    state
}

#[test]
fn slices_are_those_that_the_unit_moves() {
    for vector_bytes in VECTOR_LENGTHS {
        let before = state(vector_bytes);
        for size in SIZES {
            let (m, slices) = (
                size.bytes(),
                vector_bytes as usize / usize::from(size.bytes()),
            );
            for (tile, slice) in [(0, 0), (m - 1, slices - 1), (m / 2, slices / 2)] {
                let after = moved(&before, Direction::Horizontal, size, tile, slice);
                let row = before.horizontal_slice(size, tile.into(), slice);
                assert_eq!(after.vector(3), row);
                let after = moved(&before, Direction::Vertical, size, tile, slice);
                let column = before.vertical_slice(size, tile.into(), slice);
                assert_eq!(after.vector(3), column);
            }
        }
    }
}

#[test]
fn registers_and_vectors_follow_each_other() {
    let mut state = state(32);
    state.p = (0..64).collect();
    assert_eq!(state.vector(31), &state.z[31 * 32..]);
    assert_eq!(state.predicate(15), [60, 61, 62, 63]);
    assert_eq!(state.array_vector(31), &state.za[31 * 32..]);
    let mut other = state.clone();
    for number in 0..16 {
        assert_eq!(state.predicate(number), other.predicate_mut(number));
    }
    for number in 0..32 {
        assert_eq!(state.vector(number), other.vector_mut(number));
        assert_eq!(state.array_vector(number), other.array_vector_mut(number));
    }
}

#[test]
fn there_is_no_more_than_there_is() {
    let state = state(32);
    assert!(panics(|| state.vector(32)));
    assert!(panics(|| state.predicate(16)));
    assert!(panics(|| state.array_vector(32)));
    for size in SIZES {
        let (m, slices) = (usize::from(size.bytes()), 32 / usize::from(size.bytes()));
        assert!(!panics(|| state.horizontal_slice(size, m - 1, slices - 1)));
        assert!(panics(|| state.horizontal_slice(size, m, 0)));
        assert!(panics(|| state.horizontal_slice(size, 0, slices)));
        assert!(panics(|| state.vertical_slice(size, m, 0)));
        assert!(panics(|| state.vertical_slice(size, 0, slices)));
    }
}

#[test]
fn buffers_of_other_lengths_have_no_registers() {
    for spoil in [
        |state: &mut State| state.z.truncate(1023),
        |state: &mut State| state.z.clear(),
        |state: &mut State| state.za.truncate(1023),
        |state: &mut State| state.za.extend([0; 32]),
    ] {
        let mut state = state(32);
        spoil(&mut state);
        assert!(panics(|| state.array_vector(0)));
        assert!(panics(|| state.vertical_slice(ElementSize::Bits8, 0, 0)));
    }
}
