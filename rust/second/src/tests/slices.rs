//! What a load and a store of a slice must do, for the tests of both.

use super::machine::Machine;

/// The bytes of an element with the load and the store of a row of tile 0:
/// W12, P0, base X1, offset register X2, offset 0.
pub const SIZES: [(usize, u32, u32); 5] = [
    (1, 0xE002_0020, 0xE022_0020),
    (2, 0xE042_0020, 0xE062_0020),
    (4, 0xE082_0020, 0xE0A2_0020),
    (8, 0xE0C2_0020, 0xE0E2_0020),
    (16, 0xE1C2_0020, 0xE1E2_0020),
];

/// What makes a row a column.
pub const VERTICAL: u32 = 0x8000;

/// Slice s of a tile of m bytes.
#[derive(Clone, Copy)]
pub struct Slice {
    pub m: usize,
    pub vertical: bool,
    pub tile: usize,
    pub s: usize,
}

impl Slice {
    /// Vector and byte at which element e begins (section 3).
    fn place(&self, e: usize) -> (usize, usize) {
        if self.vertical {
            (e * self.m + self.tile, self.s * self.m)
        } else {
            (self.s * self.m + self.tile, e * self.m)
        }
    }
}

/// Checks that the word stores those elements of the slice to memory from
/// byte `first` on, and nothing else.
pub fn stores(machine: &Machine, word: u32, at: Slice, first: usize, active: &[usize]) {
    let mut wanted = machine.clone();
    for &e in active {
        let (vector, byte) = at.place(e);
        let element = &machine.za(vector)[byte..byte + at.m];
        wanted.memory[first + e * at.m..][..at.m].copy_from_slice(element);
    }
    machine.clone().expect_done(word, &wanted);
}

/// Checks that the word loads those elements of the slice from memory from
/// byte `first` on, sets its other elements to zero, and does nothing else.
pub fn loads(machine: &Machine, word: u32, at: Slice, first: usize, active: &[usize]) {
    let mut wanted = machine.clone();
    for e in 0..machine.vector_bytes() / at.m {
        let (vector, byte) = at.place(e);
        let mut element = vec![0; at.m];
        if active.contains(&e) {
            element.copy_from_slice(&machine.memory[first + e * at.m..][..at.m]);
        }
        wanted.set_za_part(vector, byte, &element);
    }
    machine.clone().expect_done(word, &wanted);
}
