//! Plain loops over a column of a tile: what one would write by hand for one
//! element size, without any check of settings or lengths; and a plain copy.
//! They are called, as the unit is.

use std::hint::black_box;

/// A vertical slice. Element e is in ZA vector e*m + tile, at byte slice*m
/// (document 01, section 3).
pub struct Column {
    pub vector_bytes: usize,
    pub tile: usize,
    pub slice: usize,
    /// How far element 0 of a load or store is behind the first byte of
    /// memory. It wraps where element 0 is before memory.
    pub in_memory: usize,
}

impl Column {
    fn place<const M: usize>(&self, e: usize) -> usize {
        (e * M + self.tile) * self.vector_bytes + self.slice * M
    }

    fn place_in_memory<const M: usize>(&self, e: usize) -> usize {
        self.in_memory.wrapping_add(e * M)
    }
}

fn active(p: &[u8], bit: usize) -> bool {
    p[bit / 8] >> (bit % 8) & 1 == 1
}

/// As a move to a tile, with the same predicate test.
#[inline(never)]
pub fn to_tile<const M: usize>(column: &Column, za: &mut [u8], z: &[u8], p: &[u8]) {
    for e in 0..column.vector_bytes / M {
        if active(p, e * M) {
            let place = column.place::<M>(e);
            za[place..place + M].copy_from_slice(&z[e * M..e * M + M]);
        }
    }
}

/// As a move from a tile, with the same predicate test: it reads the column
/// and writes the register, whose inactive elements stay.
#[inline(never)]
pub fn from_tile<const M: usize>(column: &Column, za: &[u8], z: &mut [u8], p: &[u8]) {
    for e in 0..column.vector_bytes / M {
        if active(p, e * M) {
            let place = column.place::<M>(e);
            z[e * M..e * M + M].copy_from_slice(&za[place..place + M]);
        }
    }
}

/// As a move and zero from a tile: it zeroes what it moves.
#[inline(never)]
pub fn zeroing_from_tile<const M: usize>(column: &Column, za: &mut [u8], z: &mut [u8]) {
    for e in 0..column.vector_bytes / M {
        let place = column.place::<M>(e);
        let element = &mut za[place..place + M];
        z[e * M..e * M + M].copy_from_slice(element);
        element.fill(0);
    }
}

/// As a load, with the same predicate test: inactive elements become zero.
#[inline(never)]
pub fn load<const M: usize>(column: &Column, za: &mut [u8], memory: &[u8], p: &[u8]) {
    for e in 0..column.vector_bytes / M {
        let place = column.place::<M>(e);
        let element = &mut za[place..place + M];
        if active(p, e * M) {
            let from = column.place_in_memory::<M>(e);
            element.copy_from_slice(&memory[from..from + M]);
        } else {
            element.fill(0);
        }
    }
}

/// As a store, with the same predicate test.
#[inline(never)]
pub fn store<const M: usize>(column: &Column, za: &[u8], memory: &mut [u8], p: &[u8]) {
    for e in 0..column.vector_bytes / M {
        if active(p, e * M) {
            let place = column.place::<M>(e);
            let to = column.place_in_memory::<M>(e);
            memory[to..to + M].copy_from_slice(&za[place..place + M]);
        }
    }
}

/// Copies so many bytes from ZA to the vector registers, and clears them in ZA
/// if asked to.
#[inline(never)]
pub fn copy(z: &mut [u8], za: &mut [u8], bytes: usize, zeroes: bool) {
    let bytes = black_box(bytes);
    let to = black_box(&mut z[..bytes]);
    to.copy_from_slice(black_box(&za[..bytes]));
    if zeroes {
        black_box(&mut za[..bytes]).fill(0);
    }
}
