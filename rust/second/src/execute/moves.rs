//! The moves between ZA and the vector registers (document 01, section 5,
//! as request 1 amends it).

use super::state::State;
use super::vector::Vector;
use super::Mistake;
use crate::flat::Flat;
use crate::refusal::Refusal;

/// MOVA to tile: active elements of the slice take the source register's
/// elements, inactive ones keep what they had.
pub fn vector_to_tile(state: &mut State, operation: &Flat) -> Result<(), Refusal> {
    let slice = state.slice(operation)?;
    let operand = state.z(usize::from(operation.first_vector));
    let result = merged(state, operation, &operand, state.za_slice(&slice));
    state.set_za_slice(&slice, &result);
    Ok(())
}

/// MOVA from tile: active elements of the register take the slice's
/// elements, inactive ones keep what they had; the slice stays.
pub fn tile_to_vector(state: &mut State, operation: &Flat) -> Result<(), Refusal> {
    let slice = state.slice(operation)?;
    let operand = state.za_slice(&slice);
    let register = usize::from(operation.first_vector);
    let kept = match state.mistake {
        Mistake::InactiveZeroed => Vector::ZERO,
        _ => state.z(register),
    };
    let result = merged(state, operation, &operand, kept);
    state.set_z(register, &result);
    Ok(())
}

/// MOVAZ from tile: the register takes the slice, then the slice is zero.
pub fn tile_to_vector_zeroing(state: &mut State, operation: &Flat) -> Result<(), Refusal> {
    let slice = state.slice(operation)?;
    let operand = state.za_slice(&slice);
    state.set_za_slice(&slice, &Vector::ZERO);
    state.replace_z(usize::from(operation.first_vector), &operand);
    Ok(())
}

/// The elements of `source` that the governing predicate makes active, and
/// the elements of `kept` at the other places.
fn merged(state: &State, operation: &Flat, source: &Vector, kept: Vector) -> Vector {
    let m = usize::from(operation.element_bytes);
    let mut result = kept;
    for e in 0..state.elements(m) {
        let element = source.element(e, m);
        if state.active(operation.predicate, e, m) {
            result.set_element(e, m, element);
        }
    }
    result
}

/// The array forms, two or four registers, with or without zeroing: a
/// vector group is one vector out of each part of ZA, and there are as many
/// parts as registers.
pub fn array_to_vectors(state: &mut State, operation: &Flat, zeroing: bool) -> Result<(), Refusal> {
    let registers = usize::from(operation.vectors);
    let vectors = group_vectors(state);
    let stride = stride(state, vectors, registers);
    let mut vector = (state.index_sum(operation)? % stride as u64) as usize;
    for register in 0..registers {
        let result = state.za_vector(vector);
        if zeroing {
            state.set_za_vector(vector, &Vector::ZERO);
        }
        state.replace_z(usize::from(operation.first_vector) + register, &result);
        // Only a mistaken stride comes to the end of ZA before the last
        // register; it begins again at the front.
        vector = (vector + stride) % vectors;
    }
    Ok(())
}

/// How many vectors of ZA the groups are made of: B, however many the buffer
/// has room for.
fn group_vectors(state: &State) -> usize {
    match state.mistake {
        Mistake::GroupsByLargest => state.layout.largest,
        _ => state.layout.vector_bytes,
    }
}

/// How many vectors further the next one of a group of r registers is: an
/// r-th of those that the groups are made of.
fn stride(state: &State, vectors: usize, registers: usize) -> usize {
    match state.mistake {
        Mistake::FourByStrideOfTwo => vectors / 2,
        _ => vectors / registers,
    }
}
