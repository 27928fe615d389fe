//! The flat form: eleven bytes that stand for one decoded operation.
//!
//! Document 01, section 4 asks for one decoded form for each word and for
//! registers by their true numbers; the amended table numbers the kinds. A
//! field that a kind does not have is 0 here, so that the form of a word is
//! unique.

/// How many numbers the flat form has.
pub const LENGTH: usize = 11;

/// MOVA, vector to tile slice.
pub const MOVA_TO_TILE: u8 = 1;
/// MOVAZ, tile slice to vector.
pub const MOVAZ_FROM_TILE: u8 = 2;
/// MOVA, array to vectors (two or four registers).
pub const MOVA_ARRAY: u8 = 3;
/// MOVAZ, array to vectors (two or four registers).
pub const MOVAZ_ARRAY: u8 = 4;
/// ST1, store of a tile slice of any element size.
pub const STORE: u8 = 5;
/// MOVA, tile slice to vector.
pub const MOVA_FROM_TILE: u8 = 6;
/// LD1, load of a tile slice of any element size.
pub const LOAD: u8 = 7;

/// The place of each number among the eleven.
///
/// Only the test inputs address numbers by place; decoding and encoding
/// use the names.
pub mod place {
    pub const KIND: usize = 0;
    pub const ELEMENT_BYTES: usize = 1;
    pub const DIRECTION: usize = 2;
    pub const TILE: usize = 3;
    pub const OFFSET: usize = 4;
    pub const INDEX: usize = 5;
    pub const PREDICATE: usize = 6;
    pub const FIRST_VECTOR: usize = 7;
    pub const BASE: usize = 8;
    pub const OFFSET_REGISTER: usize = 9;
    pub const VECTORS: usize = 10;
}

/// One operation, or any eleven bytes offered as one.
#[derive(Clone, Copy, Debug, Default, PartialEq, Eq)]
pub struct Flat {
    /// Which of the seven kinds; see the constants above.
    pub kind: u8,
    /// Bytes of an element: 1, 2, 4, 8 or 16; 0 for the array forms.
    pub element_bytes: u8,
    /// 0 horizontal, 1 vertical.
    pub direction: u8,
    /// Tile number; a byte tile is always 0.
    pub tile: u8,
    /// Offset that is added to the index register.
    pub offset: u8,
    /// Index register: 12 to 15, or 8 to 11 for the array forms.
    pub index: u8,
    /// Governing predicate, 0 to 7; 0 for the kinds without one.
    pub predicate: u8,
    /// First (or only) vector register; 0 for loads and stores.
    pub first_vector: u8,
    /// Base register of a load or store; 31 is the stack pointer.
    pub base: u8,
    /// Offset register of a load or store; 31 reads as zero.
    pub offset_register: u8,
    /// Number of vector registers: 1 for the tile moves, 2 or 4 for the
    /// array forms, 0 for loads and stores.
    pub vectors: u8,
}

impl Flat {
    /// Reads the eleven bytes in order; no value is checked here, because
    /// refusing is the work of encoding.
    pub fn from_bytes(bytes: [u8; LENGTH]) -> Flat {
        let [kind, element_bytes, direction, tile, offset, index, predicate, first_vector, base, offset_register, vectors] =
            bytes;
        Flat {
            kind,
            element_bytes,
            direction,
            tile,
            offset,
            index,
            predicate,
            first_vector,
            base,
            offset_register,
            vectors,
        }
    }

    /// The eleven bytes in order.
    pub fn to_bytes(self) -> [u8; LENGTH] {
        [
            self.kind,
            self.element_bytes,
            self.direction,
            self.tile,
            self.offset,
            self.index,
            self.predicate,
            self.first_vector,
            self.base,
            self.offset_register,
            self.vectors,
        ]
    }
}
