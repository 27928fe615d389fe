//! Where vectors and registers are in the buffers, and how long the buffers
//! are by that (document 01, section 2, as request 12 amends it).
//!
//! A host may keep its buffers for a longer vector length than it runs at.
//! Only what is here goes by that length; slices, elements and groups go by
//! the vector length that the host runs at.

use super::{Mistake, Settings};
use std::ops::Range;

/// The two vector lengths of settings that were accepted.
pub struct Layout {
    mistake: Mistake,
    /// B, the bytes of a vector that execution reads and writes.
    pub vector_bytes: usize,
    /// The vector length that the buffers are laid out for.
    pub largest: usize,
}

impl Layout {
    pub fn new(mistake: Mistake, settings: &Settings) -> Layout {
        let vector_bytes = settings.vector_bytes as usize;
        let largest = settings.largest_vector_bytes as usize;
        Layout {
            mistake,
            vector_bytes,
            largest: mistake.largest_seen(largest, vector_bytes),
        }
    }

    /// The bytes of Z: 32 registers.
    pub fn z_length(&self) -> usize {
        32 * self.largest
    }

    /// The bytes of P: 16 registers, of a bit for each byte of a vector.
    pub fn p_length(&self) -> usize {
        16 * (self.largest / 8)
    }

    /// The bytes of ZA: as many vectors as a vector has bytes.
    pub fn za_length(&self) -> usize {
        self.largest * self.largest
    }

    /// The bytes of a vector register, B of them.
    pub fn register(&self, number: usize) -> Range<usize> {
        self.vector(number, Mistake::RegistersPacked)
    }

    /// What follows them up to the next register. It never changes; only a
    /// mistake asks where it is.
    pub fn beyond_register(&self, number: usize) -> Range<usize> {
        let register = self.register(number);
        register.end..register.start + self.largest
    }

    /// The bytes of a ZA vector, B of them.
    pub fn za_vector(&self, number: usize) -> Range<usize> {
        self.vector(number, Mistake::ZaVectorsPacked)
    }

    /// The first byte of a predicate register.
    pub fn predicate(&self, number: usize) -> usize {
        number * (self.apart(Mistake::PredicatesPacked) / 8)
    }

    fn vector(&self, number: usize, packed: Mistake) -> Range<usize> {
        let first = number * self.apart(packed);
        first..first + self.vector_bytes
    }

    /// How far apart vectors start: the largest length, but for the mistake
    /// that takes it to be B.
    fn apart(&self, packed: Mistake) -> usize {
        if self.mistake == packed {
            self.vector_bytes
        } else {
            self.largest
        }
    }
}
