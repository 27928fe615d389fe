//! Where the tiles lie in the array.

use crate::digits::decimal;
use std::fmt::Display;

/// The sizes of elements, in bytes. There are as many tiles of a size as it has bytes.
pub const ELEMENT_BYTES: [usize; 5] = [1, 2, 4, 8, 16];

/// A tile on vectors of one length.
#[derive(Clone, Copy, Debug, PartialEq)]
pub struct Tile {
    pub element_bytes: usize,
    pub number: usize,
    pub vector_bytes: usize,
}

impl Tile {
    /// The tile of this element size that a vector of the array belongs to.
    pub fn holding(vector: usize, element_bytes: usize, vector_bytes: usize) -> Tile {
        Tile {
            element_bytes,
            number: vector % element_bytes,
            vector_bytes,
        }
    }

    /// The tile that two numbers name, if there is one.
    pub fn existing(named: sme_move::Tile, vector_bytes: usize) -> Option<Tile> {
        let mut sizes = ELEMENT_BYTES.into_iter();
        let element_bytes = sizes.find(|&size| size as u64 == named.element_bytes)?;
        let number = (0..element_bytes).find(|&number| number as u64 == named.number)?;
        Some(Tile::holding(number, element_bytes, vector_bytes))
    }

    /// Whether a vector of the array belongs to both. A tile of the larger size lies in one tile of
    /// the smaller.
    pub fn shares(self, other: Tile) -> bool {
        let smaller = self.element_bytes.min(other.element_bytes);
        self.number % smaller == other.number % smaller
    }

    /// How many slices it has either way, which is also how many elements a slice has.
    pub fn slices(self) -> usize {
        self.vector_bytes / self.element_bytes
    }

    /// The vector of the array that is its horizontal slice `slice`.
    pub fn vector(self, slice: usize) -> usize {
        slice * self.element_bytes + self.number
    }

    pub fn name(self) -> String {
        name(self.element_bytes, self.number)
    }
}

/// The tile that two decimal numbers name, element bytes and number with a colon between, whether or not there is one.
pub fn named(text: &str) -> Option<sme_move::Tile> {
    let (element_bytes, number) = text.split_once(':')?;
    Some(sme_move::Tile {
        element_bytes: decimal(element_bytes)?,
        number: decimal(number)?,
    })
}

/// What a tile with these numbers is called, also where there is none.
pub fn name(element_bytes: impl Display, number: impl Display) -> String {
    format!("tile {number} of {element_bytes}-byte elements")
}

#[cfg(test)]
mod tests {
    use super::*;

    #[test]
    fn the_tiles_of_a_size_share_the_array_without_overlap() {
        for vector_bytes in [16, 32, 64, 128, 256] {
            for element_bytes in ELEMENT_BYTES {
                let mut seen = vec![false; vector_bytes];
                for number in 0..element_bytes {
                    let tile = Tile {
                        element_bytes,
                        number,
                        vector_bytes,
                    };
                    for vector in (0..tile.slices()).map(|slice| tile.vector(slice)) {
                        assert!(!std::mem::replace(&mut seen[vector], true));
                        assert_eq!(Tile::holding(vector, element_bytes, vector_bytes), tile);
                    }
                }
                assert!(seen.into_iter().all(|seen| seen));
            }
        }
    }

    /// Every tile on vectors of 32 bytes.
    fn tiles() -> Vec<Tile> {
        let of_size = |size| (0..size).map(move |vector| Tile::holding(vector, size, 32));
        ELEMENT_BYTES.into_iter().flat_map(of_size).collect()
    }

    #[test]
    fn tiles_share_bytes_where_they_have_a_vector_in_common() {
        let vectors = |tile: Tile| (0..tile.slices()).map(move |slice| tile.vector(slice));
        for one in tiles() {
            for other in tiles() {
                let common = vectors(one).any(|vector| vectors(other).any(|v| v == vector));
                assert_eq!(one.shares(other), common, "{one:?} {other:?}");
            }
        }
    }

    #[test]
    fn two_numbers_name_a_tile_or_none() {
        let existing = |element_bytes, number| {
            let named = sme_move::Tile {
                element_bytes,
                number,
            };
            Tile::existing(named, 32)
        };
        for tile in tiles() {
            let found = existing(tile.element_bytes as u64, tile.number as u64);
            assert_eq!(found, Some(tile));
        }
        for (element_bytes, number) in [(0, 0), (3, 0), (32, 0), (257, 0), (4, 4), (1, 1 << 32)] {
            assert_eq!(existing(element_bytes, number), None);
        }
    }
}
