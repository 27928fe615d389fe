//! What loads and stores share: the addresses of their elements, and answers
//! 6 and 7 (document 01, sections 5 and 6, as requests 2, 4 and 6 amend them).

use super::fault::fault;
use super::state::State;
use super::Mistake;
use crate::flat::Flat;
use crate::refusal::Refusal;

/// The number that is the stack pointer as a base and zero as an offset.
const THIRTY_ONE: u8 = 31;
/// Bytes to which the stack pointer must be aligned.
const ALIGNMENT: u64 = 16;
/// How many addresses there are.
const ADDRESSES: u128 = 1 << 64;

/// m, the bytes of an element.
pub fn element_bytes(operation: &Flat) -> usize {
    usize::from(operation.element_bytes)
}

/// n, the elements of the slice.
pub fn elements(state: &State, operation: &Flat) -> usize {
    state.elements(element_bytes(operation))
}

/// Whether element e is loaded or stored.
pub fn active(state: &State, operation: &Flat, e: usize) -> bool {
    state.active(operation.predicate, e, element_bytes(operation))
}

/// Answer 6. With the stack check off it is never given (request 4), and
/// without an active element neither; source 001 leaves the latter open and
/// section 6 chooses.
pub fn check_stack_pointer(state: &State, operation: &Flat) -> Result<(), Refusal> {
    let checked = state
        .mistake
        .stack_check_seen(state.stack_check, operation.kind);
    let any_active = (0..elements(state, operation)).any(|e| active(state, operation, e));
    let aligned = state.x(THIRTY_ONE).is_multiple_of(ALIGNMENT);
    if checked && operation.base == THIRTY_ONE && any_active && !aligned {
        return Err(Refusal::StackPointer);
    }
    Ok(())
}

/// Answer 7, for the lowest-numbered active element that is not wholly in
/// memory.
pub fn check_addresses(state: &State, operation: &Flat) -> Result<(), Refusal> {
    for e in 0..elements(state, operation) {
        if !active(state, operation, e) {
            continue;
        }
        if let Some(i) = first_outside(state, operation, e) {
            return Err(fault(state, operation, e, i));
        }
    }
    Ok(())
}

/// The number of the first byte of element e that is not in memory, if there
/// is one.
pub fn first_outside(state: &State, operation: &Flat, e: usize) -> Option<usize> {
    let checked = match state.mistake {
        Mistake::FirstByteChecked => 1,
        _ => element_bytes(operation),
    };
    (0..checked).find(|&i| !state.memory.has(address(state, operation, e, i)))
}

/// The address of byte i of element e: (base + (offset register + e) times m
/// + i) modulo 2^64, all of it taken over whole numbers.
pub fn address(state: &State, operation: &Flat, e: usize, i: usize) -> u64 {
    let m = u128::from(operation.element_bytes);
    let base = u128::from(base(state, operation));
    let offset = u128::from(offset(state, operation));
    let from_base = match state.mistake {
        Mistake::OffsetNotScaled => offset + e as u128 * m,
        _ => (offset + e as u128) * m,
    };
    ((base + from_base + i as u128) % ADDRESSES) as u64
}

/// Puts the bytes of an element, the lowest first, in the order that they
/// have in memory, or back: memory too has the lowest first.
pub fn order(state: &State, bytes: &mut [u8]) {
    if state.mistake == Mistake::BigEndian {
        bytes.reverse();
    }
}

/// Number 31 as a base is the stack pointer.
fn base(state: &State, operation: &Flat) -> u64 {
    if operation.base == THIRTY_ONE && state.mistake == Mistake::BaseThirtyOneAsZero {
        return 0;
    }
    state.x(operation.base)
}

/// Number 31 as an offset reads as zero.
fn offset(state: &State, operation: &Flat) -> u64 {
    let as_stack_pointer = state.mistake == Mistake::OffsetThirtyOneAsStackPointer;
    if operation.offset_register == THIRTY_ONE && !as_stack_pointer {
        return 0;
    }
    state.x(operation.offset_register)
}
