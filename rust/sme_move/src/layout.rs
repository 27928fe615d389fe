//! Where registers, vectors of the array and slices of tiles lie in their buffers.

use crate::operation::ElementSize;
use std::ops::Range;

pub(crate) const VECTORS: usize = 32;
pub(crate) const PREDICATES: usize = 16;

/// How many bytes of a vector there are, and how far apart vectors start in their buffers. A predicate register has an
/// eighth of both. All functions panic where a buffer has not the length that this gives it.
#[derive(Clone, Copy)]
pub(crate) struct Layout {
    pub vector_bytes: usize,
    pub largest_vector_bytes: usize,
}

impl Layout {
    /// Of vectors that follow each other without any bytes between.
    pub fn close(vector_bytes: usize) -> Layout {
        Layout {
            vector_bytes,
            largest_vector_bytes: vector_bytes,
        }
    }

    pub fn vector(self, z: &[u8], number: usize) -> Range<usize> {
        check(z, VECTORS, self.largest_vector_bytes);
        self.place(number, VECTORS, 1)
    }

    pub fn predicate(self, p: &[u8], number: usize) -> Range<usize> {
        check(p, PREDICATES, self.largest_vector_bytes / 8);
        self.place(number, PREDICATES, 8)
    }

    /// Of the vectors of the array, as many have a number as a vector has bytes.
    pub fn array_vector(self, za: &[u8], number: usize) -> Range<usize> {
        check(za, self.largest_vector_bytes, self.largest_vector_bytes);
        self.place(number, self.vector_bytes, 1)
    }

    pub fn horizontal_slice(
        self,
        za: &[u8],
        size: ElementSize,
        tile: usize,
        slice: usize,
    ) -> Range<usize> {
        let m = self.checked_slice(size, tile, slice);
        self.array_vector(za, slice * m + tile)
    }

    /// A copy, since its elements lie in as many vectors.
    pub fn vertical_slice(
        self,
        za: &[u8],
        size: ElementSize,
        tile: usize,
        slice: usize,
    ) -> Vec<u8> {
        let m = self.checked_slice(size, tile, slice);
        let rows = (0..self.vector_bytes / m).map(|row| self.array_vector(za, row * m + tile));
        rows.flat_map(|row| &za[row][slice * m..][..m])
            .copied()
            .collect()
    }

    /// The bytes of an element. Panics unless there is such a slice of such a tile.
    fn checked_slice(self, size: ElementSize, tile: usize, slice: usize) -> usize {
        let m = usize::from(size.bytes());
        assert!(tile < m, "there is no tile {tile} of {m}-byte elements");
        let slices = self.vector_bytes / m;
        assert!(
            slice < slices,
            "there is no slice {slice} of the {slices} of a tile of {m}-byte elements"
        );
        m
    }

    /// The place of one of so many parts, each an n-th of a vector.
    fn place(self, number: usize, count: usize, n: usize) -> Range<usize> {
        assert!(number < count, "there is no number {number} of {count}");
        let start = number * (self.largest_vector_bytes / n);
        start..start + self.vector_bytes / n
    }
}

/// Panics unless a buffer is so many parts of this length.
fn check(buffer: &[u8], count: usize, bytes: usize) {
    let found = buffer.len();
    assert_eq!(found, count * bytes, "no {count} times {bytes} bytes");
}
