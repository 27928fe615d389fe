//! What answer 7 carries: the address of a byte outside memory, and the number
//! of the element that it is of (document 01, section 6, as requests 2 and 6
//! amend it).

use super::access::{active, address, element_bytes, elements, first_outside};
use super::state::State;
use super::Mistake;
use crate::flat::Flat;
use crate::refusal::Refusal;

/// Answer 7 for byte i of element e.
pub fn fault(state: &State, operation: &Flat, e: usize, i: usize) -> Refusal {
    let told = match state.mistake {
        Mistake::FaultAtElement => 0,
        _ => i,
    };
    Refusal::Fault {
        address: address(state, operation, e, told),
        element: element_told(state, operation, e, i) as u64,
    }
}

/// Elements are numbered within the slice, whatever their size, which way the
/// slice goes, and where memory is. Only mistakes tell another number than e.
fn element_told(state: &State, operation: &Flat, e: usize, i: usize) -> usize {
    let m = element_bytes(operation);
    let active = |&e: &usize| active(state, operation, e);
    let outside = |&e: &usize| first_outside(state, operation, e).is_some();
    match state.mistake {
        Mistake::ElementAsByteOfSlice => e * m + i,
        Mistake::ElementAsByte => i,
        Mistake::ElementAsVector if operation.direction == 1 => e * m + usize::from(operation.tile),
        Mistake::ElementFirstActive => (0..e).find(active).unwrap_or(e),
        Mistake::ElementAmongActive => (0..e).filter(active).count(),
        Mistake::ElementInactive => (0..e).find(outside).unwrap_or(e),
        Mistake::ElementLowestInMemory => {
            let faulting = (0..elements(state, operation)).filter(|e| active(e) && outside(e));
            let first = |&e: &usize| address(state, operation, e, 0);
            faulting.min_by_key(first).unwrap_or(e)
        }
        _ => e,
    }
}
