//! Numbers of registers and vectors, and as many bytes as they have.

use super::Place;
use crate::digits::{bytes, decimal, shown};

/// The number of a vector register, predicate or vector of the array, and its bytes.
pub fn member_bytes(
    place: Place,
    values: &[&str],
    vector_bytes: usize,
) -> Result<(usize, Vec<u8>), String> {
    let name = place.member();
    let length = place.member_bytes(vector_bytes);
    let Some((number, tokens)) = values.split_first() else {
        return Err(format!("a {name} takes its number and {length} bytes"));
    };
    let number = member(name, place.members(vector_bytes), number)?;
    Ok((number, exactly(tokens, name, length)?))
}

/// So many bytes, which are those of what has this name.
pub fn exactly(tokens: &[&str], name: &str, length: usize) -> Result<Vec<u8>, String> {
    let bytes = bytes(tokens)?;
    match bytes.len() {
        found if found == length => Ok(bytes),
        found => Err(format!(
            "a {name} has exactly {length} bytes here, not {found}"
        )),
    }
}

/// The number of one of so many registers, vectors or elements.
pub fn member(name: &str, members: usize, text: &str) -> Result<usize, String> {
    decimal(text)
        .filter(|&number| number < members as u64)
        .map(|number| number as usize)
        .ok_or_else(|| {
            let (text, last) = (shown(text), members - 1);
            format!("'{text}' is no number of a {name}: 0 to {last}, in decimal")
        })
}
