//! What of the array a word takes, and which elements are active.

use crate::operation::{Parts, Reach};
use crate::tile::Tile;
use sme_move::Direction;

/// The part of the array that a word takes.
#[derive(Debug, PartialEq)]
pub enum Taken {
    Slice {
        tile: Tile,
        direction: Direction,
        slice: usize,
    },
    Vectors(Vec<usize>),
}

/// The low 32 bits of the index register, which alone count.
pub fn index_value(parts: Parts, registers: &[u64]) -> u32 {
    registers[usize::from(parts.index)] as u32
}

/// What a slice or vector number is taken modulo.
pub fn modulus(reach: Reach, vector_bytes: usize) -> usize {
    let divisor = match reach {
        Reach::Slice { size, .. } => size.bytes(),
        Reach::Group(registers) => registers.number(),
    };
    vector_bytes / usize::from(divisor)
}

impl Taken {
    pub fn by(parts: Parts, vector_bytes: usize, registers: &[u64]) -> Taken {
        let modulus = modulus(parts.reach, vector_bytes);
        let sum = u64::from(index_value(parts, registers)) + u64::from(parts.offset);
        let first = (sum % modulus as u64) as usize;
        match parts.reach {
            Reach::Group(registers) => {
                let group = 0..usize::from(registers.number());
                Taken::Vectors(group.map(|i| first + i * modulus).collect())
            }
            Reach::Slice {
                size,
                direction,
                tile,
            } => Taken::Slice {
                tile: Tile {
                    element_bytes: usize::from(size.bytes()),
                    number: usize::from(tile),
                    vector_bytes,
                },
                direction,
                slice: first,
            },
        }
    }
}

/// The elements of a slice that are active under a predicate: those whose lowest bit is 1.
pub fn active_elements(tile: Tile, predicate: &[u8]) -> Vec<usize> {
    let active = |element: &usize| {
        let bit = element * tile.element_bytes;
        predicate[bit / 8] >> (bit % 8) & 1 == 1
    };
    (0..tile.slices()).filter(active).collect()
}

#[cfg(test)]
mod tests {
    use super::*;
    use sme_move::decode;

    fn taken(word: u32, vector_bytes: usize, index: u64) -> Taken {
        let parts = Parts::of(decode(word, 3).expect("the word decodes"));
        let mut registers = [0; 32];
        registers[usize::from(parts.index)] = index;
        Taken::by(parts, vector_bytes, &registers)
    }

    #[test]
    fn the_upper_half_of_the_index_register_does_not_count() {
        let tile = Tile {
            element_bytes: 8,
            number: 6,
            vector_bytes: 64,
        };
        let slice = Taken::Slice {
            tile,
            direction: Direction::Vertical,
            slice: 0,
        };
        assert_eq!(taken(0xC0C2E3BF, 64, 0xFFFF_FFFF), slice);
        assert_eq!(taken(0xC0C2E3BF, 64, u64::MAX), slice);
    }

    #[test]
    fn a_move_from_a_tile_takes_the_slice_that_zeroing_takes() {
        for index in [0, 7, 0xFFFF_FFFF] {
            assert_eq!(taken(0xC082AD25, 32, index), taken(0xC082A325, 32, index));
        }
    }

    #[test]
    fn groups_of_the_array_are_a_stride_apart() {
        assert_eq!(taken(0xC0064CFC, 16, 2), Taken::Vectors(vec![1, 5, 9, 13]));
        assert_eq!(taken(0xC0064EFC, 16, 2), Taken::Vectors(vec![1, 5, 9, 13]));
        assert_eq!(taken(0xC0060A6A, 16, 6), Taken::Vectors(vec![1, 9]));
        assert_eq!(taken(0xC006086A, 32, 6), Taken::Vectors(vec![9, 25]));
    }

    #[test]
    fn only_the_lowest_bit_of_an_element_makes_it_active() {
        let tile = Tile {
            element_bytes: 4,
            number: 0,
            vector_bytes: 16,
        };
        assert_eq!(active_elements(tile, &[0b0001_1110, 0xFF]), [1, 2, 3]);
    }
}
