//! ST1, the store of a tile's slice (document 01, section 5, as request 2
//! amends it; page "ST1 (scalar plus scalar, tile slice)").

use super::access;
use super::fault::fault;
use super::state::State;
use super::vector::{split, LARGEST_ELEMENT};
use super::Mistake;
use crate::flat::Flat;
use crate::refusal::Refusal;

/// Checks every active element before the first is written: a store that
/// would fault writes nothing (section 6).
pub fn store(state: &mut State, operation: &Flat) -> Result<(), Refusal> {
    let slice = state.slice(operation)?;
    access::check_stack_pointer(state, operation)?;
    if state.mistake != Mistake::StoreBeforeFault {
        access::check_addresses(state, operation)?;
    }
    let source = state.za_slice(&slice);
    for e in 0..access::elements(state, operation) {
        if access::active(state, operation, e) {
            let element = source.element(e, access::element_bytes(operation));
            write_element(state, operation, e, element)?;
        }
    }
    Ok(())
}

/// Writes one element, byte i to its i-th address. After the right checks
/// none of them is outside of memory; a store that does not check faults
/// here, and one that checks first bytes only goes on.
fn write_element(
    state: &mut State,
    operation: &Flat,
    e: usize,
    element: u128,
) -> Result<(), Refusal> {
    let mut room = [0; LARGEST_ELEMENT];
    let bytes = &mut room[..access::element_bytes(operation)];
    split(element, bytes);
    access::order(state, bytes);
    for (i, &byte) in bytes.iter().enumerate() {
        let address = access::address(state, operation, e, i);
        let written = state.memory.write(address, byte);
        if !written && state.mistake != Mistake::FirstByteChecked {
            return Err(fault(state, operation, e, i));
        }
    }
    Ok(())
}
