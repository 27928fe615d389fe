//! What a word does.

/// The size of a tile's elements.
#[derive(Clone, Copy, Debug, PartialEq, Eq, Hash, PartialOrd, Ord)]
pub enum ElementSize {
    Bits8,
    Bits16,
    Bits32,
    Bits64,
    Bits128,
}

/// Which way a tile's slices go.
#[derive(Clone, Copy, Debug, PartialEq, Eq, Hash)]
pub enum Direction {
    Horizontal,
    Vertical,
}

/// How many vector registers a move from the array has.
#[derive(Clone, Copy, Debug, PartialEq, Eq, Hash)]
pub enum RegisterCount {
    Two,
    Four,
}

/// An operation. Registers have their own numbers, so a slice index register is 12 to 15 and an array's 8
/// to 11; `first` is the first of the vector registers.
#[derive(Clone, Copy, Debug, PartialEq, Eq, Hash)]
#[non_exhaustive]
pub enum Operation {
    /// Move the active elements of a vector register to a slice of a tile.
    MovaToTile {
        size: ElementSize,
        direction: Direction,
        tile: u8,
        offset: u8,
        index: u8,
        predicate: u8,
        vector: u8,
    },
    /// Move a slice of a tile to a vector register, and zero the slice.
    MovazFromTile {
        size: ElementSize,
        direction: Direction,
        tile: u8,
        offset: u8,
        index: u8,
        vector: u8,
    },
    /// Move two or four vectors of the array to as many vector registers.
    MovaFromArray {
        registers: RegisterCount,
        offset: u8,
        index: u8,
        first: u8,
    },
    /// Move two or four vectors of the array to as many vector registers, and zero them.
    MovazFromArray {
        registers: RegisterCount,
        offset: u8,
        index: u8,
        first: u8,
    },
    /// Store the active elements of a slice of a tile to memory. Element e starts at the address base + (offset
    /// register + e) times its bytes, modulo 2^64, and its lowest byte is first; addresses need not be aligned.
    /// Number 31 is the stack pointer as the base, and reads as zero as the offset register.
    St1 {
        size: ElementSize,
        direction: Direction,
        tile: u8,
        offset: u8,
        index: u8,
        predicate: u8,
        base: u8,
        offset_register: u8,
    },
    /// Move the active elements of a slice of a tile to a vector register, whose other elements stay.
    MovaFromTile {
        size: ElementSize,
        direction: Direction,
        tile: u8,
        offset: u8,
        index: u8,
        predicate: u8,
        vector: u8,
    },
    /// Load the active elements of a slice of a tile from memory, where [`Operation::St1`] would store them, and
    /// zero its other elements.
    Ld1 {
        size: ElementSize,
        direction: Direction,
        tile: u8,
        offset: u8,
        index: u8,
        predicate: u8,
        base: u8,
        offset_register: u8,
    },
}

impl ElementSize {
    /// The size in bytes.
    pub fn bytes(self) -> u8 {
        match self {
            ElementSize::Bits8 => 1,
            ElementSize::Bits16 => 2,
            ElementSize::Bits32 => 4,
            ElementSize::Bits64 => 8,
            ElementSize::Bits128 => 16,
        }
    }

    /// The size of so many bytes, if there is one.
    pub fn of_bytes(bytes: u8) -> Option<ElementSize> {
        Some(match bytes {
            1 => ElementSize::Bits8,
            2 => ElementSize::Bits16,
            4 => ElementSize::Bits32,
            8 => ElementSize::Bits64,
            16 => ElementSize::Bits128,
            _ => return None,
        })
    }
}

impl Direction {
    /// 0 horizontal, 1 vertical.
    pub fn number(self) -> u8 {
        match self {
            Direction::Horizontal => 0,
            Direction::Vertical => 1,
        }
    }

    /// The direction of a number, if there is one.
    pub fn of_number(number: u8) -> Option<Direction> {
        Some(match number {
            0 => Direction::Horizontal,
            1 => Direction::Vertical,
            _ => return None,
        })
    }
}

impl RegisterCount {
    /// 2 or 4.
    pub fn number(self) -> u8 {
        match self {
            RegisterCount::Two => 2,
            RegisterCount::Four => 4,
        }
    }

    /// The count of a number, if there is one.
    pub fn of_number(number: u8) -> Option<RegisterCount> {
        Some(match number {
            2 => RegisterCount::Two,
            4 => RegisterCount::Four,
            _ => return None,
        })
    }
}
