//! Loads and stores: what they move, what they leave alone, and which stack pointers they are refused for.

use sme_move::{encode, Direction, ElementSize, Operation, Refusal, Settings, State};

const SIZES: [ElementSize; 5] = [
    ElementSize::Bits8,
    ElementSize::Bits16,
    ElementSize::Bits32,
    ElementSize::Bits64,
    ElementSize::Bits128,
];

/// Memory's address.
const START: u64 = 0x1000;

fn settings() -> Settings {
    let settings = Settings::new(32, 1).expect("32 bytes are allowed");
    let on = settings.with_streaming(true).with_za(true);
    on.with_memory_address(START)
}

/// Every element active under predicate 0, base register 1 at memory's start and offset register 2 at zero.
fn state() -> State {
    let mut state = State::new(settings()).expect("these settings are good");
    for (number, byte) in state.za.iter_mut().enumerate() {
        *byte = (number * 7 % 251 + 1) as u8;
    }
    state.predicate_mut(0).fill(0xFF);
    state.x[1] = START;
    state
}

fn load(size: ElementSize, direction: Direction, offset: u8) -> u32 {
    let operation = Operation::Ld1 {
        size,
        direction,
        tile: size.bytes() - 1,
        offset,
        index: 12,
        predicate: 0,
        base: 1,
        offset_register: 2,
    };
    encode(operation).expect("it has a word")
}

fn store(size: ElementSize, direction: Direction, offset: u8) -> u32 {
    let operation = Operation::St1 {
        size,
        direction,
        tile: size.bytes() - 1,
        offset,
        index: 12,
        predicate: 0,
        base: 1,
        offset_register: 2,
    };
    encode(operation).expect("it has a word")
}

/// What is stored as a row comes back as the same row, and is all that memory and then ZA get.
#[test]
fn a_stored_row_is_loaded_back() {
    for size in SIZES {
        let row = 32 * (usize::from(size.bytes()) - 1)..32 * usize::from(size.bytes());
        let (mut state, mut memory) = (state(), [0xEE; 40]);
        let before = state.clone();
        let (word, back) = (
            store(size, Direction::Horizontal, 0),
            load(size, Direction::Horizontal, 0),
        );
        assert_eq!(state.execute(settings(), word, &mut memory), Ok(()));
        assert!(state == before);
        assert_eq!(memory[..32], before.za[row.clone()]);
        assert_eq!(memory[32..], [0xEE; 8]);
        state.za[row].fill(0);
        let stored = memory;
        assert_eq!(state.execute(settings(), back, &mut memory), Ok(()));
        assert!(state == before && memory == stored);
    }
}

/// Of a column, elements 1 and 2 of eight are loaded; those before and after them become zero.
#[test]
fn inactive_elements_become_zero() {
    let (mut state, mut memory) = (state(), [0; 32]);
    for (byte, number) in memory.iter_mut().zip(1..) {
        *byte = number;
    }
    state
        .predicate_mut(0)
        .copy_from_slice(&[0b1111_1110, 0b0000_0001, 0, 0]);
    state.x[12] = 8 + 2;
    let mut expected = state.clone();
    for e in 0..8 {
        let loaded = [4 * e + 1, 4 * e + 2, 4 * e + 3, 4 * e + 4].map(|byte| byte as u8);
        let element = if [1, 2].contains(&e) { loaded } else { [0; 4] };
        expected.za[(4 * e + 3) * 32 + 3 * 4..][..4].copy_from_slice(&element);
    }
    let word = load(ElementSize::Bits32, Direction::Vertical, 1);
    let before = memory;
    assert_eq!(state.execute(settings(), word, &mut memory), Ok(()));
    assert!(state == expected && memory == before);
}

/// A stack pointer that is no multiple of 16 is refused if an element is active. If none is, a load zeroes its slice.
#[test]
fn the_stack_pointer_is_looked_at_with_an_active_element() {
    for size in SIZES {
        let on_stack = load(size, Direction::Horizontal, 0) | 0x1F_03E0;
        let (mut state, mut expected) = (state(), state());
        state.x[31] = START + 8;
        expected.x[31] = START + 8;
        let answer = state.execute(settings(), on_stack, &mut [0; 64]);
        assert_eq!(answer, Err(Refusal::StackMisaligned));
        assert!(state == expected);
        let tile = usize::from(size.bytes()) - 1;
        expected.za[32 * tile..][..32].fill(0);
        state.p.fill(0);
        expected.p.fill(0);
        assert_eq!(state.execute(settings(), on_stack, &mut []), Ok(()));
        assert!(state == expected);
    }
}

/// With the stack check off it is a base like any other: the load is done, or gets 7 with address and element.
#[test]
fn a_misaligned_stack_pointer_is_a_base_with_the_check_off() {
    let settings = settings().with_stack_check(false);
    for size in SIZES {
        let on_stack = load(size, Direction::Horizontal, 0) | 0x1F_03E0;
        let (mut state, mut expected) = (state(), state());
        state.x[31] = START + 8;
        expected.x[31] = START + 8;
        let mut memory: Vec<u8> = (0..64).collect();
        let tile = usize::from(size.bytes()) - 1;
        expected.za[32 * tile..][..32].copy_from_slice(&memory[8..40]);
        assert_eq!(state.execute(settings, on_stack, &mut memory), Ok(()));
        assert!(state == expected);
        let refusal = Refusal::OutsideMemory {
            address: START + 8,
            element: 0,
        };
        assert_eq!(state.execute(settings, on_stack, &mut []), Err(refusal));
        assert!(state == expected);
    }
}
