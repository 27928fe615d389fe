//! The moves of whole vectors of the array.

use crate::active::Active;
use crate::row::Part;
use crate::task::{Callee, Task};
use compare::names;
use sme_move::{encode_fields, Fields, Kind, RegisterCount};

/// The kinds, in the two numbers of vectors that there are.
const ARRAY: [(Kind, RegisterCount, &str); 4] = [
    (Kind::MovaFromArray, RegisterCount::Two, "two"),
    (Kind::MovaFromArray, RegisterCount::Four, "four"),
    (Kind::MovazFromArray, RegisterCount::Two, "two"),
    (Kind::MovazFromArray, RegisterCount::Four, "four"),
];

/// All of them. They have no predicate and no element size.
pub fn tasks(vector_bytes: usize) -> [Task; 4] {
    ARRAY.map(|(kind, registers, many)| {
        let name = format!("{}, {many}", names::name(kind));
        Task {
            name: name.clone(),
            kind: name,
            callee: Callee::Archive,
            word: word(kind, registers.number()),
            answer: 0,
            vector_bytes,
            largest: vector_bytes,
            element_bytes: 1,
            active: Active::All,
            prepare: |_| (),
            copied: registers.number().into(),
            zeroes: kind == Kind::MovazFromArray,
            strided: None,
            goal: None,
            part: Part::Words,
        }
    })
}

/// Index register 8, and so many vector registers from the first that can be
/// but register 0.
fn word(kind: Kind, registers: u8) -> u32 {
    let fields = Fields {
        kind: kind.number(),
        index: 8,
        vector: registers,
        registers,
        ..Fields::default()
    };
    encode_fields(fields).expect("each has a word")
}
