//! The settings and buffers that all contestants of a line work on.

use crate::placed::Placed;
use second::execute::Settings;
use second::inputs::random::Random;

/// The address of element 0 of a load or store. As many bytes of memory as a
/// vector has are before it, and as many behind the vector.
pub const ADDRESS: u64 = 0x10000;
/// The value of every index register: a slice of tiles with four rows or
/// more, and not the first.
pub const INDEX: u64 = 3;

/// Where the buffers begin within a page. What a row, a copy or a move from
/// the array reads is then never as far into a page as what it writes.
const PLACE_OF_Z: usize = 0;
const PLACE_OF_ZA: usize = 0x600;
const PLACE_OF_MEMORY: usize = 0xA00;
const PLACE_OF_X: usize = 0xD00;
const PLACE_OF_P: usize = 0xE00;

/// Settings and buffers.
pub struct Machine {
    pub settings: Settings,
    pub x: Placed<u64>,
    pub z: Placed<u8>,
    pub p: Placed<u8>,
    pub za: Placed<u8>,
    pub memory: Placed<u8>,
}

impl Machine {
    /// A machine on which every word that decodes is done, with buffers for
    /// vectors of the largest length. Predicate 0, which governs, is this one;
    /// the others are left empty.
    pub fn new(vector_bytes: usize, largest: usize, predicate: &[u8]) -> Machine {
        let mut random = Random::new(1);
        let mut filled = |place, length| {
            let mut bytes = Placed::new(place, length, 0);
            random.fill(&mut bytes);
            bytes
        };
        let mut machine = Machine {
            settings: Settings {
                vector_bytes: vector_bytes as u64,
                level: 3,
                streaming: true,
                za_on: true,
                memory_address: ADDRESS - vector_bytes as u64,
                stack_check: true,
                largest_vector_bytes: largest as u64,
            },
            x: Placed::new(PLACE_OF_X, 32, INDEX),
            z: filled(PLACE_OF_Z, 32 * largest),
            p: Placed::new(PLACE_OF_P, 2 * largest, 0),
            za: filled(PLACE_OF_ZA, largest * largest),
            memory: filled(PLACE_OF_MEMORY, 3 * vector_bytes),
        };
        machine.x[1] = ADDRESS;
        machine.x[2] = 0;
        machine.p[..predicate.len()].copy_from_slice(predicate);
        machine
    }

    /// Has memory end in the middle of the vector that is loaded or stored.
    pub fn end_memory_inside(&mut self) {
        let middle = self.middle();
        self.memory.narrow(0..middle);
    }

    /// Has memory begin in the middle of the vector that is loaded or stored.
    pub fn begin_memory_inside(&mut self) {
        let (middle, end) = (self.middle(), self.memory.len());
        self.settings.memory_address += middle as u64;
        self.memory.narrow(middle..end);
    }

    /// Has a stack pointer that is no multiple of 16.
    pub fn misalign_stack(&mut self) {
        self.x[31] = ADDRESS + 8;
    }

    /// Where the middle of that vector is in memory with room to spare.
    fn middle(&self) -> usize {
        self.settings.vector_bytes as usize * 3 / 2
    }

    /// The buffers as the archive's function is lent them.
    pub fn lend(&mut self) -> sme_move::Buffers<'_> {
        sme_move::Buffers {
            x: &self.x,
            z: &mut self.z,
            p: &self.p,
            za: &mut self.za,
            memory: &mut self.memory,
        }
    }
}

#[cfg(test)]
mod tests {
    use super::*;
    use crate::list::{long, VECTOR_LENGTHS};
    use std::collections::HashSet;

    /// The vector lengths in close buffers, and the one in long ones.
    fn lengths() -> impl Iterator<Item = (usize, usize)> {
        let close = VECTOR_LENGTHS.map(|length| (length, length));
        close
            .into_iter()
            .chain([(long::VECTOR_BYTES, long::LARGEST)])
    }

    /// How far into a page some bytes of a buffer are.
    fn places(buffer: &[u8], first: usize, length: usize) -> HashSet<usize> {
        let bytes = buffer[first..first + length].as_ptr_range();
        let addresses = bytes.start.addr()..bytes.end.addr();
        addresses.map(|address| address % 4096).collect()
    }

    #[test]
    fn rows_read_and_write_at_other_places() {
        for (vector_bytes, largest) in lengths() {
            let machine = Machine::new(vector_bytes, largest, &[]);
            let register = places(&machine.z, largest, vector_bytes);
            let in_memory = places(&machine.memory, vector_bytes, vector_bytes);
            for element_bytes in [1, 2, 4, 8, 16] {
                let slice = INDEX as usize % (vector_bytes / element_bytes);
                let vector = slice * element_bytes + usize::from(element_bytes > 1);
                let row = places(&machine.za, vector * largest, vector_bytes);
                assert!(
                    row.is_disjoint(&register),
                    "{vector_bytes}, {element_bytes}"
                );
                assert!(
                    row.is_disjoint(&in_memory),
                    "{vector_bytes}, {element_bytes}"
                );
            }
        }
    }

    #[test]
    fn copies_and_groups_read_and_write_at_other_places() {
        for vector_bytes in VECTOR_LENGTHS {
            let machine = Machine::new(vector_bytes, vector_bytes, &[]);
            for count in [1, 2, 4] {
                let length = count * vector_bytes;
                let copied = places(&machine.za, 0, length);
                assert!(copied.is_disjoint(&places(&machine.z, 0, length)));
                // The first vector register of a group is its length, too.
                let registers = places(&machine.z, length, length);
                for part in 0..count {
                    let vector =
                        INDEX as usize % (vector_bytes / count) + part * vector_bytes / count;
                    let moved = places(&machine.za, vector * vector_bytes, vector_bytes);
                    assert!(moved.is_disjoint(&registers), "{vector_bytes}, {count}");
                }
            }
        }
    }

    #[test]
    fn memory_ends_and_begins_in_the_middle() {
        let [whole, mut ends, mut begins] = [(); 3].map(|()| Machine::new(64, 64, &[]));
        ends.end_memory_inside();
        begins.begin_memory_inside();
        assert_eq!(whole.settings.memory_address, ADDRESS - 64);
        assert_eq!(ends.settings.memory_address, ADDRESS - 64);
        assert_eq!(begins.settings.memory_address, ADDRESS + 32);
        assert_eq!(ends.memory[..], whole.memory[..96]);
        assert_eq!(begins.memory[..], whole.memory[96..]);
    }
}
