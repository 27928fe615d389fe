//! The architectural state that one call works on (document 01, sections 2
//! and 3), with every length checked already.

use super::layout::Layout;
use super::memory::Memory;
use super::vector::{join, split, Vector};
use super::{Buffers, Mistake, Settings};
use crate::flat::Flat;
use crate::refusal::Refusal;

/// Registers, ZA and memory, and the mistake to be made on them.
pub struct State<'a> {
    pub mistake: Mistake,
    pub layout: Layout,
    /// The position of the switch of the stack check, as the settings have
    /// it.
    pub stack_check: bool,
    pub memory: Memory<'a>,
    x: &'a [u64],
    z: &'a mut [u8],
    p: &'a [u8],
    za: &'a mut [u8],
}

/// One slice of one tile.
pub struct Slice {
    pub tile: usize,
    pub element_bytes: usize,
    pub vertical: bool,
    pub number: usize,
}

impl<'a> State<'a> {
    pub fn new(mistake: Mistake, settings: &Settings, buffers: Buffers<'a>) -> State<'a> {
        State {
            mistake,
            layout: Layout::new(mistake, settings),
            stack_check: settings.stack_check,
            memory: Memory::new(mistake, settings.memory_address, buffers.memory),
            x: buffers.x,
            z: buffers.z,
            p: buffers.p,
            za: buffers.za,
        }
    }

    /// All 64 bits; number 31 is the stack pointer.
    pub fn x(&self, number: u8) -> u64 {
        self.x[usize::from(number)]
    }

    /// n, the elements of a vector and the slices of a tile.
    pub fn elements(&self, element_bytes: usize) -> usize {
        self.layout.vector_bytes / element_bytes
    }

    /// W + offset over whole numbers, W being the low 32 bits of the index
    /// register (section 5).
    pub fn index_sum(&self, operation: &Flat) -> Result<u64, Refusal> {
        let w = self.x(operation.index) & 0xFFFF_FFFF;
        let sum = w + u64::from(operation.offset);
        if self.mistake == Mistake::IndexAddTrapsAt32Bits && sum > 0xFFFF_FFFF {
            return Err(Refusal::Trap);
        }
        Ok(sum)
    }

    /// The slice that the operation names: number (W + offset) mod n.
    pub fn slice(&self, operation: &Flat) -> Result<Slice, Refusal> {
        let element_bytes = usize::from(operation.element_bytes);
        let modulus = match self.mistake {
            Mistake::SliceModuloVectorLength => self.layout.vector_bytes,
            Mistake::SlicesByLargest => self.layout.largest / element_bytes,
            _ => self.elements(element_bytes),
        };
        let number = self.index_sum(operation)? % modulus as u64;
        Ok(Slice {
            tile: usize::from(operation.tile),
            element_bytes,
            vertical: operation.direction == 1,
            number: number as usize,
        })
    }

    /// Whether element e is active: bit e*m of the predicate and no other
    /// is looked at (section 3).
    pub fn active(&self, predicate: u8, e: usize, element_bytes: usize) -> bool {
        let bit = match self.mistake {
            Mistake::PredicateBitPerElement => e,
            _ => e * element_bytes,
        };
        let byte = self.p[self.layout.predicate(usize::from(predicate)) + bit / 8];
        byte >> (bit % 8) & 1 == 1
    }

    pub fn z(&self, number: usize) -> Vector {
        Vector::from_bytes(&self.z[self.layout.register(number)])
    }

    pub fn set_z(&mut self, number: usize, vector: &Vector) {
        let bytes = vector.bytes(self.layout.vector_bytes);
        self.z[self.layout.register(number)].copy_from_slice(bytes);
    }

    /// The register takes the vector whole, whatever it had. That ends at B
    /// as well: only a mistake goes on.
    pub fn replace_z(&mut self, number: usize, vector: &Vector) {
        self.set_z(number, vector);
        if self.mistake == Mistake::BeyondCleared {
            self.z[self.layout.beyond_register(number)].fill(0);
        }
    }

    pub fn za_vector(&self, number: usize) -> Vector {
        Vector::from_bytes(&self.za[self.layout.za_vector(number)])
    }

    pub fn set_za_vector(&mut self, number: usize, vector: &Vector) {
        let bytes = vector.bytes(self.layout.vector_bytes);
        self.za[self.layout.za_vector(number)].copy_from_slice(bytes);
    }

    /// `ZAslice[]`, read element by element.
    pub fn za_slice(&self, slice: &Slice) -> Vector {
        let m = slice.element_bytes;
        let mut result = Vector::ZERO;
        for e in 0..self.elements(m) {
            let first = self.place(slice, e);
            // Only a mistaken slice number leads out of ZA; it finds zeros.
            let element = self.za.get(first..first + m).map_or(0, join);
            result.set_element(e, m, element);
        }
        result
    }

    /// `ZAslice[] = vector`, written element by element.
    pub fn set_za_slice(&mut self, slice: &Slice, vector: &Vector) {
        let m = slice.element_bytes;
        for e in 0..self.elements(m) {
            let first = self.place(slice, e);
            // Only a mistaken slice number leads out of ZA; it writes nothing.
            if let Some(bytes) = self.za.get_mut(first..first + m) {
                split(vector.element(e, m), bytes);
            }
        }
    }

    /// Where element e of the slice begins in ZA: a row of the tile is a ZA
    /// vector, a column the same element of every row (section 3).
    fn place(&self, slice: &Slice, e: usize) -> usize {
        let (row, column) = if slice.vertical {
            (e, slice.number)
        } else {
            (slice.number, e)
        };
        let vector = self.layout.za_vector(self.row_vector(slice, row));
        vector.start + column * slice.element_bytes
    }

    /// The ZA vector that is row `row` of the tile: the rows of a tile are m
    /// vectors apart.
    fn row_vector(&self, slice: &Slice, row: usize) -> usize {
        match self.mistake {
            Mistake::TileAsBlock => slice.tile * self.elements(slice.element_bytes) + row,
            _ => row * slice.element_bytes + slice.tile,
        }
    }
}
