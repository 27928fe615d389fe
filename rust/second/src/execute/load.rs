//! LD1, the load of a tile's slice (document 01, section 5, as request 2
//! amends it; page "LD1 (scalar plus scalar, tile slice)").

use super::access;
use super::state::{Slice, State};
use super::vector::{join, Vector, LARGEST_ELEMENT};
use super::Mistake;
use crate::flat::Flat;
use crate::refusal::Refusal;

/// Active elements of the slice take the bytes at their addresses, inactive
/// ones become zero. Every active element is checked first: a load that
/// would fault leaves the slice as it is (section 6).
pub fn load(state: &mut State, operation: &Flat) -> Result<(), Refusal> {
    let slice = state.slice(operation)?;
    access::check_stack_pointer(state, operation)?;
    access::check_addresses(state, operation)?;
    let mut result = inactive_elements(state, operation, &slice);
    for e in 0..access::elements(state, operation) {
        if access::active(state, operation, e) {
            let element = read_element(state, operation, e);
            result.set_element(e, access::element_bytes(operation), element);
        }
    }
    state.set_za_slice(&slice, &result);
    Ok(())
}

/// The vector whose elements stand where none is active: zero. Only the
/// mistakes keep elements of the slice, from some element on.
fn inactive_elements(state: &State, operation: &Flat, slice: &Slice) -> Vector {
    let first_kept = match state.mistake {
        Mistake::LoadKeepsInactive => 0,
        Mistake::LoadKeepsTrailing => after_last_active(state, operation),
        _ => return Vector::ZERO,
    };
    let mut result = state.za_slice(slice);
    for e in 0..first_kept {
        result.set_element(e, access::element_bytes(operation), 0);
    }
    result
}

/// One more than the last active element, or 0 if there is none.
fn after_last_active(state: &State, operation: &Flat) -> usize {
    let last =
        (0..access::elements(state, operation)).rfind(|&e| access::active(state, operation, e));
    last.map_or(0, |e| e + 1)
}

/// Reads one element, byte i from its i-th address. After the right checks
/// none of them is outside of memory; a mistaken one finds zeros there.
fn read_element(state: &State, operation: &Flat, e: usize) -> u128 {
    let mut room = [0; LARGEST_ELEMENT];
    let bytes = &mut room[..access::element_bytes(operation)];
    for (i, byte) in bytes.iter_mut().enumerate() {
        let address = access::address(state, operation, e, i);
        *byte = state.memory.read(address).unwrap_or(0);
    }
    access::order(state, bytes);
    join(bytes)
}
