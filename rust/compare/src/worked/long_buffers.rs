//! Worked examples of vectors in buffers for longer ones (request 12): where
//! everything lies, and that nothing goes by what is between.

use super::{bytes, case_within, Worked};
use crate::case::Case;
use sme_move::Refusal;

/// A buffer that words write.
#[derive(Clone, Copy)]
enum Buffer {
    Z,
    Za,
    Memory,
}

use Buffer::{Memory, Za, Z};

/// What a word writes: so many bytes, from one place as it was before the
/// call to another, or zeros.
#[derive(Clone, Copy)]
enum Written {
    Copied(usize, (Buffer, usize), (Buffer, usize)),
    Zeroed(usize, (Buffer, usize)),
}

use Written::{Copied, Zeroed};

/// A word in buffers for vectors of the largest length. Index registers 8 and
/// 12 are 6, register 1 is 5, and memory has 64 bytes from address 0 on.
struct Example {
    name: &'static str,
    word: u32,
    vector_bytes: usize,
    largest: usize,
    /// The bits of predicate 3; beyond the vector length all are set.
    bits: &'static [usize],
    written: &'static [Written],
}

/// Vectors start 64, 128 or 256 bytes apart. A slice of n = 4 has number
/// 6 mod 4 = 2, one of n = 2 number 0.
const EXAMPLES: [Example; 11] = [
    // Row 2 of tile 1 is vector 9; elements 0 and 3 of vector register 5.
    Example {
        name: "a row from a register",
        word: 0xC080_0CA4,
        vector_bytes: 16,
        largest: 64,
        bits: &[0, 12],
        written: &[
            Copied(4, (Z, 5 * 64), (Za, 9 * 64)),
            Copied(4, (Z, 5 * 64 + 12), (Za, 9 * 64 + 12)),
        ],
    },
    // Column 2 of tile 1: vectors 1, 5, 9 and 13, from byte 8 on.
    Example {
        name: "a column from a register",
        word: 0xC080_8CA4,
        vector_bytes: 16,
        largest: 64,
        bits: &[0, 4, 8, 12],
        written: &[
            Copied(4, (Z, 5 * 64), (Za, 64 + 8)),
            Copied(4, (Z, 5 * 64 + 4), (Za, 5 * 64 + 8)),
            Copied(4, (Z, 5 * 64 + 8), (Za, 9 * 64 + 8)),
            Copied(4, (Z, 5 * 64 + 12), (Za, 13 * 64 + 8)),
        ],
    },
    Example {
        name: "a row from a register, no bit set but beyond",
        word: 0xC080_0CA4,
        vector_bytes: 16,
        largest: 64,
        bits: &[],
        written: &[],
    },
    // Row 2 of tile 5 of 8-byte elements is vector 21, to register 31.
    Example {
        name: "a row to the last register, and zero",
        word: 0xC0C2_035F,
        vector_bytes: 32,
        largest: 128,
        bits: &[],
        written: &[
            Copied(32, (Za, 21 * 128), (Z, 31 * 128)),
            Zeroed(32, (Za, 21 * 128)),
        ],
    },
    // Column 0 of tile 15 of 16-byte elements: vectors 15 and 31.
    Example {
        name: "a column to a register, and zero",
        word: 0xC0C3_83E0,
        vector_bytes: 32,
        largest: 256,
        bits: &[],
        written: &[
            Copied(16, (Za, 15 * 256), (Z, 0)),
            Copied(16, (Za, 31 * 256), (Z, 16)),
            Zeroed(16, (Za, 15 * 256)),
            Zeroed(16, (Za, 31 * 256)),
        ],
    },
    // Column 2 of tile 1: elements 1 and 2 to vector register 31.
    Example {
        name: "a column to a register",
        word: 0xC082_8C9F,
        vector_bytes: 16,
        largest: 64,
        bits: &[4, 8],
        written: &[
            Copied(4, (Za, 5 * 64 + 8), (Z, 31 * 64 + 4)),
            Copied(4, (Za, 9 * 64 + 8), (Z, 31 * 64 + 8)),
        ],
    },
    // (6 + 7) mod 4 is 1; four vectors, 4 apart.
    Example {
        name: "four vectors",
        word: 0xC006_0CFC,
        vector_bytes: 16,
        largest: 64,
        bits: &[],
        written: &[
            Copied(16, (Za, 64), (Z, 28 * 64)),
            Copied(16, (Za, 5 * 64), (Z, 29 * 64)),
            Copied(16, (Za, 9 * 64), (Z, 30 * 64)),
            Copied(16, (Za, 13 * 64), (Z, 31 * 64)),
        ],
    },
    // (6 + 3) mod 16 is 9; two vectors, 16 apart.
    Example {
        name: "two vectors, and zero",
        word: 0xC006_0A6A,
        vector_bytes: 32,
        largest: 64,
        bits: &[],
        written: &[
            Copied(32, (Za, 9 * 64), (Z, 10 * 64)),
            Copied(32, (Za, 25 * 64), (Z, 11 * 64)),
            Zeroed(32, (Za, 9 * 64)),
            Zeroed(32, (Za, 25 * 64)),
        ],
    },
    // Column 2 of tile 1 from address 5 on, element 2 of four inactive.
    Example {
        name: "a column from memory",
        word: 0xE09F_8C24,
        vector_bytes: 16,
        largest: 256,
        bits: &[0, 4, 12],
        written: &[
            Copied(4, (Memory, 5), (Za, 256 + 8)),
            Copied(4, (Memory, 9), (Za, 5 * 256 + 8)),
            Zeroed(4, (Za, 9 * 256 + 8)),
            Copied(4, (Memory, 17), (Za, 13 * 256 + 8)),
        ],
    },
    Example {
        name: "a row from memory, no bit set but beyond",
        word: 0xE09F_0C24,
        vector_bytes: 16,
        largest: 64,
        bits: &[],
        written: &[Zeroed(16, (Za, 9 * 64))],
    },
    // Row 6 of the tile of bytes, of which three are active.
    Example {
        name: "a row to memory",
        word: 0xE03F_0C20,
        vector_bytes: 16,
        largest: 64,
        bits: &[0, 7, 15],
        written: &[
            Copied(1, (Za, 6 * 64), (Memory, 5)),
            Copied(1, (Za, 6 * 64 + 7), (Memory, 12)),
            Copied(1, (Za, 6 * 64 + 15), (Memory, 20)),
        ],
    },
];

pub fn list() -> Vec<Worked> {
    let mut all: Vec<Worked> = EXAMPLES.iter().map(Example::worked).collect();
    all.extend(refusals());
    all
}

impl Example {
    fn worked(&self) -> Worked {
        let case = self.case();
        let mut worked = unchanged(self.name, case, Ok(()));
        for &written in self.written {
            worked.write(written);
        }
        worked
    }

    fn case(&self) -> Case {
        let mut case = case_within(self.vector_bytes, self.largest, self.word);
        case.memory = bytes(64, 200);
        (case.x[1], case.x[8], case.x[12]) = (5, 6, 6);
        for bit in self.bits {
            case.p[3 * self.largest / 8 + bit / 8] |= 1 << (bit % 8);
        }
        case
    }
}

/// With every buffer as it was.
fn unchanged(name: &str, case: Case, answer: Result<(), Refusal>) -> Worked {
    Worked {
        name: format!("long buffers: {name}"),
        z: case.z.clone(),
        za: case.za.clone(),
        memory: case.memory.clone(),
        case,
        answer,
    }
}

impl Worked {
    fn write(&mut self, written: Written) {
        match written {
            Copied(count, (from, place), to) => {
                let from = match from {
                    Z => &self.case.z,
                    Za => &self.case.za,
                    Memory => &self.case.memory,
                };
                let bytes = from[place..place + count].to_vec();
                self.place(to, count).copy_from_slice(&bytes);
            }
            Zeroed(count, at) => self.place(at, count).fill(0),
        }
    }

    fn place(&mut self, (buffer, place): (Buffer, usize), count: usize) -> &mut [u8] {
        let bytes = match buffer {
            Z => &mut self.z,
            Za => &mut self.za,
            Memory => &mut self.memory,
        };
        &mut bytes[place..place + count]
    }
}

/// Lengths and settings that do not go together, and a byte outside memory of
/// the last element that there is: the vector after it would have more.
fn refusals() -> Vec<Worked> {
    let row = &EXAMPLES[0];
    let close = {
        let mut case = row.case();
        case.settings.largest_vector_bytes = 16;
        unchanged("buffers that are too long", case, Err(Refusal::BadLengths))
    };
    let short = {
        let mut case = row.case();
        case.z.truncate(32 * 16);
        unchanged("Z as for the vector length", case, Err(Refusal::BadLengths))
    };
    let below = {
        let mut case = row.case();
        case.settings.vector_bytes = 128;
        unchanged(
            "the largest below the other",
            case,
            Err(Refusal::BadSettings),
        )
    };
    let zero = {
        let mut case = row.case();
        case.settings.largest_vector_bytes = 0;
        unchanged("the largest 0", case, Err(Refusal::BadSettings))
    };
    let outside = {
        let mut case = EXAMPLES[8].case();
        case.memory.truncate(19);
        let refusal = Refusal::OutsideMemory {
            address: 19,
            element: 3,
        };
        unchanged("the last element outside memory", case, Err(refusal))
    };
    vec![close, short, below, zero, outside]
}
