//! The eleven numbers of an operation.

use crate::kind::Kind;
use crate::operation::{Direction, ElementSize, Operation, RegisterCount};

/// An operation as numbers: those that the C interface has, in its order. What a kind does not have is 0.
#[derive(Clone, Copy, Debug, Default, PartialEq, Eq, Hash)]
pub struct Fields {
    /// 1 move to tile, 2 move and zero from tile, 3 move from array, 4 move and zero from array, 5 store,
    /// 6 move from tile, 7 load: the number of a [`Kind`].
    pub kind: u8,
    /// 1, 2, 4, 8 or 16; 0 for the array kinds.
    pub element_bytes: u8,
    /// 0 horizontal, 1 vertical: the number of a [`Direction`].
    pub direction: u8,
    pub tile: u8,
    pub offset: u8,
    /// The number of the register that the slice or vector number is taken from.
    pub index: u8,
    /// The governing predicate of a move to or from a tile, a load or a store; a move and zero has none.
    pub predicate: u8,
    /// The first vector register; a load or store has none.
    pub vector: u8,
    /// The base register of a load or store; 31 is the stack pointer.
    pub base: u8,
    /// The offset register of a load or store; 31 reads as zero.
    pub offset_register: u8,
    /// The number of vector registers: 1 for a move of a tile's slice, 2 or 4 for the array kinds, 0 for a
    /// load or store.
    pub registers: u8,
}

impl From<[u8; 11]> for Fields {
    fn from(numbers: [u8; 11]) -> Fields {
        let [kind, element_bytes, direction, tile, offset, index, predicate, vector, base, offset_register, registers] =
            numbers;
        Fields {
            kind,
            element_bytes,
            direction,
            tile,
            offset,
            index,
            predicate,
            vector,
            base,
            offset_register,
            registers,
        }
    }
}

impl From<Fields> for [u8; 11] {
    fn from(fields: Fields) -> [u8; 11] {
        [
            fields.kind,
            fields.element_bytes,
            fields.direction,
            fields.tile,
            fields.offset,
            fields.index,
            fields.predicate,
            fields.vector,
            fields.base,
            fields.offset_register,
            fields.registers,
        ]
    }
}

impl From<Operation> for Fields {
    fn from(operation: Operation) -> Fields {
        match operation {
            Operation::MovaToTile {
                size,
                direction,
                tile,
                offset,
                index,
                predicate,
                vector,
            } => Fields {
                predicate,
                vector,
                registers: 1,
                ..tile_fields(Kind::MovaToTile, size, direction, tile, offset, index)
            },
            Operation::MovazFromTile {
                size,
                direction,
                tile,
                offset,
                index,
                vector,
            } => Fields {
                vector,
                registers: 1,
                ..tile_fields(Kind::MovazFromTile, size, direction, tile, offset, index)
            },
            Operation::MovaFromArray {
                registers,
                offset,
                index,
                first,
            } => array_fields(Kind::MovaFromArray, registers, offset, index, first),
            Operation::MovazFromArray {
                registers,
                offset,
                index,
                first,
            } => array_fields(Kind::MovazFromArray, registers, offset, index, first),
            Operation::St1 {
                size,
                direction,
                tile,
                offset,
                index,
                predicate,
                base,
                offset_register,
            } => Fields {
                predicate,
                base,
                offset_register,
                ..tile_fields(Kind::St1, size, direction, tile, offset, index)
            },
            Operation::MovaFromTile {
                size,
                direction,
                tile,
                offset,
                index,
                predicate,
                vector,
            } => Fields {
                predicate,
                vector,
                registers: 1,
                ..tile_fields(Kind::MovaFromTile, size, direction, tile, offset, index)
            },
            Operation::Ld1 {
                size,
                direction,
                tile,
                offset,
                index,
                predicate,
                base,
                offset_register,
            } => Fields {
                predicate,
                base,
                offset_register,
                ..tile_fields(Kind::Ld1, size, direction, tile, offset, index)
            },
        }
    }
}

/// What every operation on a tile has.
fn tile_fields(
    kind: Kind,
    size: ElementSize,
    direction: Direction,
    tile: u8,
    offset: u8,
    index: u8,
) -> Fields {
    Fields {
        kind: kind.number(),
        element_bytes: size.bytes(),
        direction: direction.number(),
        tile,
        offset,
        index,
        ..Fields::default()
    }
}

fn array_fields(kind: Kind, registers: RegisterCount, offset: u8, index: u8, first: u8) -> Fields {
    Fields {
        kind: kind.number(),
        offset,
        index,
        vector: first,
        registers: registers.number(),
        ..Fields::default()
    }
}

impl Fields {
    /// The operation that has these numbers, if their kind, size, direction and number of registers name
    /// one. Whether each number is in its range is for [`encode_fields`](crate::encode_fields) to say.
    pub fn operation(self) -> Option<Operation> {
        let operation = self.named()?;
        (Fields::from(operation) == self).then_some(operation)
    }

    fn named(self) -> Option<Operation> {
        let Fields {
            tile,
            offset,
            index,
            predicate,
            vector,
            base,
            offset_register,
            ..
        } = self;
        let size = ElementSize::of_bytes(self.element_bytes);
        let direction = Direction::of_number(self.direction)?;
        let registers = RegisterCount::of_number(self.registers);
        Some(match Kind::of_number(self.kind)? {
            Kind::MovaToTile => Operation::MovaToTile {
                size: size?,
                direction,
                tile,
                offset,
                index,
                predicate,
                vector,
            },
            Kind::MovazFromTile => Operation::MovazFromTile {
                size: size?,
                direction,
                tile,
                offset,
                index,
                vector,
            },
            Kind::MovaFromArray => Operation::MovaFromArray {
                registers: registers?,
                offset,
                index,
                first: vector,
            },
            Kind::MovazFromArray => Operation::MovazFromArray {
                registers: registers?,
                offset,
                index,
                first: vector,
            },
            Kind::St1 => Operation::St1 {
                size: size?,
                direction,
                tile,
                offset,
                index,
                predicate,
                base,
                offset_register,
            },
            Kind::MovaFromTile => Operation::MovaFromTile {
                size: size?,
                direction,
                tile,
                offset,
                index,
                predicate,
                vector,
            },
            Kind::Ld1 => Operation::Ld1 {
                size: size?,
                direction,
                tile,
                offset,
                index,
                predicate,
                base,
                offset_register,
            },
        })
    }
}
