//! The parts of an operation that a reader wants to see, whichever its kind.

use sme_move::{Direction, ElementSize, Operation, RegisterCount};

/// What an operation is made of.
#[derive(Clone, Copy, Debug)]
pub struct Parts {
    /// The kind in plain words.
    pub name: &'static str,
    pub reach: Reach,
    /// The register and the number that choose the slice, or the first vector.
    pub index: u8,
    pub offset: u8,
    pub governing_predicate: Option<u8>,
    /// The first vector register; a load or store has none.
    pub vector: Option<u8>,
    pub access: Option<Access>,
}

/// Which kind of part of the array an operation goes to.
#[derive(Clone, Copy, Debug)]
pub enum Reach {
    /// A slice of a tile.
    Slice {
        size: ElementSize,
        direction: Direction,
        tile: u8,
    },
    /// Whole vectors, as many as there are registers.
    Group(RegisterCount),
}

/// How a load or store gets its addresses.
#[derive(Clone, Copy, Debug)]
pub struct Access {
    pub stores: bool,
    pub base: u8,
    pub offset_register: u8,
    pub size: ElementSize,
}

impl Reach {
    /// The bytes of an element, where there are elements.
    pub fn element_bytes(self) -> Option<usize> {
        match self {
            Reach::Slice { size, .. } => Some(usize::from(size.bytes())),
            Reach::Group(_) => None,
        }
    }
}

impl Parts {
    #[rustfmt::skip] // One kind after another in one form shows what each has and lacks.
    pub fn of(operation: Operation) -> Parts {
        match operation {
            Operation::MovaToTile { size, direction, tile, offset, index, predicate, vector } => Parts {
                governing_predicate: Some(predicate),
                vector: Some(vector),
                ..Parts::new("move to tile", Reach::Slice { size, direction, tile }, index, offset)
            },
            Operation::MovaFromTile { size, direction, tile, offset, index, predicate, vector } => Parts {
                governing_predicate: Some(predicate),
                vector: Some(vector),
                ..Parts::new("move from tile", Reach::Slice { size, direction, tile }, index, offset)
            },
            Operation::MovazFromTile { size, direction, tile, offset, index, vector } => Parts {
                vector: Some(vector),
                ..Parts::new("move and zero from tile", Reach::Slice { size, direction, tile }, index, offset)
            },
            Operation::MovaFromArray { registers, offset, index, first } => Parts {
                vector: Some(first),
                ..Parts::new("move from array", Reach::Group(registers), index, offset)
            },
            Operation::MovazFromArray { registers, offset, index, first } => Parts {
                vector: Some(first),
                ..Parts::new("move and zero from array", Reach::Group(registers), index, offset)
            },
            Operation::St1 { size, direction, tile, offset, index, predicate, base, offset_register } => Parts {
                governing_predicate: Some(predicate),
                access: Some(Access { stores: true, base, offset_register, size }),
                ..Parts::new("store from tile", Reach::Slice { size, direction, tile }, index, offset)
            },
            Operation::Ld1 { size, direction, tile, offset, index, predicate, base, offset_register } => Parts {
                governing_predicate: Some(predicate),
                access: Some(Access { stores: false, base, offset_register, size }),
                ..Parts::new("load to tile", Reach::Slice { size, direction, tile }, index, offset)
            },
            // The binding may get more kinds; this program is then built anew with words for them.
            other => unreachable!("there are no words for {other:?}"),
        }
    }

    /// Neither under a predicate, nor with registers or memory.
    fn new(name: &'static str, reach: Reach, index: u8, offset: u8) -> Parts {
        Parts {
            name,
            reach,
            index,
            offset,
            governing_predicate: None,
            vector: None,
            access: None,
        }
    }
}
