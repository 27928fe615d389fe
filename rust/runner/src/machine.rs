//! The simulated machine: settings, registers, the array and memory.

use crate::access::first_address;
use crate::operation::Parts;
use crate::script::{Action, Place, Script, Subject, PLACES};
use sme_move::{decode, Direction, Operation, Refusal, Settings, State, Stopped};
use std::borrow::Cow;
use std::fmt;
use std::ops::Range;

/// How many bytes of memory are shown as a row.
pub const MEMORY_ROW: usize = 16;

/// What is between vectors and between predicates. It is not zero, so that zeros written there are noticed too.
const BETWEEN: u8 = 0xA5;

pub struct Machine {
    pub settings: Settings,
    pub state: State,
    pub memory: Vec<u8>,
}

/// What came of a word, with what was there before it.
pub struct Execution {
    pub word: u32,
    pub operation: Result<Operation, Refusal>,
    pub answer: Result<(), Refusal>,
    pub state_before: State,
    /// The rows of memory that a store may reach, as they were before it. There are none for other words, which
    /// leave memory alone, loads included.
    pub memory_before: Vec<u8>,
    /// Where these rows begin in memory.
    pub memory_start: usize,
}

impl Execution {
    /// The rows of memory that a store may reach, as they are after it.
    pub fn memory_after<'a>(&self, machine: &'a Machine) -> &'a [u8] {
        &machine.memory[self.memory_start..][..self.memory_before.len()]
    }
}

impl Machine {
    /// A machine that holds zeros and the script's memory.
    pub fn new(script: &Script) -> Machine {
        let settings = script.settings;
        let mut state = State::new(settings).expect("a script's settings are checked");
        for place in PLACES {
            let buffer = place.buffer_mut(&mut state);
            for range in place.between(settings) {
                buffer[range].fill(BETWEEN);
            }
        }
        Machine {
            settings,
            state,
            memory: script.memory.clone(),
        }
    }

    pub fn vector_bytes(&self) -> usize {
        self.settings.vector_bytes as usize
    }

    /// Does a step of the script that sets contents; words and expectations set none.
    pub fn set(&mut self, action: &Action) {
        match action {
            Action::Register { number, value } => self.state.x[*number] = *value,
            Action::Content {
                place,
                number,
                bytes,
            } => self.member_mut(*place, *number).copy_from_slice(bytes),
            Action::Array(bytes) => self.set_array(bytes),
            Action::Word(_) | Action::Expect(_) => {}
        }
    }

    /// A vector register, a predicate or a vector of the array.
    pub fn member(&self, place: Place, number: usize) -> &[u8] {
        member(&self.state, place, number, self.settings)
    }

    fn member_mut(&mut self, place: Place, number: usize) -> &mut [u8] {
        let range = place.range(number, self.settings);
        &mut place.buffer_mut(&mut self.state)[range]
    }

    /// All vectors of the array without what is between them, as files have them.
    pub fn array(&self) -> Vec<u8> {
        let numbers = 0..Place::Array.members(self.vector_bytes());
        let vectors = numbers.map(|number| self.member(Place::Array, number));
        vectors.collect::<Vec<_>>().concat()
    }

    fn set_array(&mut self, bytes: &[u8]) {
        for (number, vector) in bytes.chunks(self.vector_bytes()).enumerate() {
            self.member_mut(Place::Array, number)
                .copy_from_slice(vector);
        }
    }

    /// So many bytes of what an expectation is about. They are in memory, which was checked before.
    pub fn bytes(&self, subject: Subject, length: usize) -> Cow<'_, [u8]> {
        match subject {
            Subject::Memory { address } => {
                let start = (address - self.settings.memory_address) as usize;
                self.memory[start..start + length].into()
            }
            Subject::Vector(number) => self.member(Place::Vector, number).into(),
            Subject::Array(number) => self.member(Place::Array, number).into(),
            Subject::Slice {
                tile,
                direction: Direction::Horizontal,
                slice,
            } => self.member(Place::Array, tile.vector(slice)).into(),
            Subject::Slice { tile, slice, .. } => {
                let column = slice * tile.element_bytes;
                let element = |number| {
                    let row = self.member(Place::Array, tile.vector(number));
                    row[column..column + tile.element_bytes].iter().copied()
                };
                (0..tile.slices()).flat_map(element).collect()
            }
        }
    }

    /// A row of memory, and its address as it is shown.
    pub fn memory_row(&self, row: usize) -> &[u8] {
        let start = row * MEMORY_ROW;
        &self.memory[start..self.memory.len().min(start + MEMORY_ROW)]
    }

    pub fn row_address(&self, row: usize) -> String {
        let start = self.settings.memory_address;
        format!("{:016X}", start.wrapping_add((row * MEMORY_ROW) as u64))
    }

    /// Executes a word, and keeps what was there before it.
    pub fn execute(&mut self, word: u32) -> Execution {
        let operation = decode(word, self.settings.level);
        let reach = operation.map_or(0..0, |operation| self.stored(Parts::of(operation)));
        let memory_start = reach.start;
        let memory_before = self.memory[reach].to_vec();
        let state_before = self.state.clone();
        let answer = self.state.execute(self.settings, word, &mut self.memory);
        self.assert_kept(&state_before, format_args!("word {word:08X}"));
        Execution {
            word,
            operation,
            answer,
            state_before,
            memory_before,
            memory_start,
        }
    }

    /// Runs words as a file of words has them, in one call, up to the first that is refused: how many were done.
    pub fn run(&mut self, listing: &[u8]) -> Result<usize, Stopped> {
        let memory = &mut self.memory;
        self.state
            .run_listing(self.settings, listing, u64::MAX, memory)
    }

    /// Panics where the unit changed what is between vectors or between predicates: it is promised not to.
    pub fn assert_kept(&self, before: &State, by: impl fmt::Display) {
        assert!(
            self.kept_between(before),
            "the archive changed bytes beyond the vector length, by {by}"
        );
    }

    /// Whether what is between vectors and between predicates is as it was.
    fn kept_between(&self, before: &State) -> bool {
        PLACES.into_iter().all(|place| {
            let (before, after) = (place.buffer(before), place.buffer(&self.state));
            let mut between = place.between(self.settings);
            between.all(|range| before[range.clone()] == after[range])
        })
    }

    /// The rows of memory that a store may reach: those with the addresses of its slice, which is one vector long.
    /// To compare all of a large memory would take most of the time of a run.
    fn stored(&self, parts: Parts) -> Range<usize> {
        let Some(access) = parts.access.filter(|access| access.stores) else {
            return 0..0;
        };
        let first = first_address(access, &self.state.x);
        let start = first.wrapping_sub(self.settings.memory_address);
        let end = start.wrapping_add(self.settings.vector_bytes);
        let length = self.memory.len() as u64;
        // A slice that begins below memory's first byte may wrap into it.
        let start = if end < start { 0 } else { start };
        if start >= length {
            return 0..0;
        }
        let row = MEMORY_ROW as u64;
        let (start, end) = (start / row * row, end.next_multiple_of(row).min(length));
        start as usize..end as usize
    }
}

/// A vector register, a predicate or a vector of the array of some state.
pub fn member(state: &State, place: Place, number: usize, settings: Settings) -> &[u8] {
    &place.buffer(state)[place.range(number, settings)]
}

#[cfg(test)]
mod tests;
