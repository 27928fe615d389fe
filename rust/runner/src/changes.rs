//! The bytes that a word changed.

use crate::machine::{member, Execution, Machine};
use crate::script::Place;
use std::ops::Range;

/// Where bytes are.
#[derive(Clone, Copy, Debug, PartialEq)]
pub enum Spot {
    /// In a vector of the array, from one of its bytes on.
    Array {
        number: usize,
        byte: usize,
    },
    /// In a vector register.
    Vector {
        number: usize,
        byte: usize,
    },
    Memory {
        address: u64,
    },
}

/// Neighbouring bytes that all changed.
#[derive(Debug, PartialEq)]
pub struct Change<'a> {
    pub spot: Spot,
    pub before: &'a [u8],
    pub after: &'a [u8],
}

/// All that a word changed, in the order array, vector registers, memory, and there from low to high.
pub fn of<'a>(execution: &'a Execution, machine: &'a Machine) -> Vec<Change<'a>> {
    let array = |number, byte| Spot::Array { number, byte };
    let vector = |number, byte| Spot::Vector { number, byte };
    let start = machine.settings.memory_address;
    let memory = |byte| Spot::Memory {
        address: start.wrapping_add((execution.memory_start + byte) as u64),
    };
    let mut changes = of_members(Place::Array, execution, machine, array);
    changes.extend(of_members(Place::Vector, execution, machine, vector));
    let (before, after) = (&execution.memory_before, execution.memory_after(machine));
    changes.extend(runs(before, after, memory));
    changes
}

/// What changed in each member of a place.
fn of_members<'a>(
    place: Place,
    execution: &'a Execution,
    machine: &'a Machine,
    spot: impl Fn(usize, usize) -> Spot,
) -> Vec<Change<'a>> {
    let mut changes = Vec::new();
    for number in 0..place.members(machine.vector_bytes()) {
        let before = member(&execution.state_before, place, number, machine.settings);
        let after = machine.member(place, number);
        changes.extend(runs(before, after, |byte| spot(number, byte)));
    }
    changes
}

/// The runs of bytes that differ.
fn runs<'a>(
    before: &'a [u8],
    after: &'a [u8],
    spot: impl Fn(usize) -> Spot,
) -> impl Iterator<Item = Change<'a>> {
    let runs = differing(before, after).into_iter();
    runs.map(move |run| Change {
        spot: spot(run.start),
        before: &before[run.clone()],
        after: &after[run],
    })
}

fn differing(before: &[u8], after: &[u8]) -> Vec<Range<usize>> {
    let mut runs: Vec<Range<usize>> = Vec::new();
    // Most parts are the same, which is seen at once.
    if before == after {
        return runs;
    }
    for byte in (0..before.len()).filter(|&byte| before[byte] != after[byte]) {
        match runs.last_mut() {
            Some(run) if run.end == byte => run.end += 1,
            _ => runs.push(byte..byte + 1),
        }
    }
    runs
}

#[cfg(test)]
mod tests {
    use super::*;
    use crate::script::parse;
    use std::path::Path;

    #[test]
    fn neighbouring_bytes_are_one_run() {
        const BEFORE: [u8; 8] = [0; 8];
        const AFTER: [u8; 8] = [1, 0, 0, 2, 3, 4, 0, 5];
        let changes = runs(&BEFORE, &AFTER, |at| Spot::Memory { address: at as u64 });
        let pair = |change: Change<'static>| (change.spot, change.after);
        let found: Vec<(Spot, &[u8])> = changes.map(pair).collect();
        let at = |address| Spot::Memory { address };
        let expected: [(Spot, &[u8]); 3] = [(at(0), &[1]), (at(3), &[2, 3, 4]), (at(7), &[5])];
        assert_eq!(found, expected);
    }

    /// Two whole vectors of the array become zero, and go to two registers: each is a run by itself, whether bytes lie
    /// between vectors or not.
    #[test]
    fn no_run_goes_over_the_end_of_a_vector() {
        for largest in [16, 64] {
            let text = format!("vector-bytes 16\nlargest-vector-bytes {largest}\nword 00000000\n");
            let script = parse(&text, Path::new("")).expect("a good script");
            let mut machine = Machine::new(&script);
            machine.state.za.fill(7);
            // Two registers from number 10 on take vectors 0 and 8, and these become zero.
            let execution = machine.execute(0xC006_0A0A);
            let found: Vec<(Spot, usize)> = of(&execution, &machine)
                .iter()
                .map(|change| (change.spot, change.after.len()))
                .collect();
            let array = [0, 8].map(|number| (Spot::Array { number, byte: 0 }, 16));
            let vectors = [10, 11].map(|number| (Spot::Vector { number, byte: 0 }, 16));
            assert_eq!(found, [array, vectors].concat());
        }
    }
}
