//! Worked examples of loads and stores: the ends of memory, the end of all
//! addresses, which byte answer 7 tells and of which element, what becomes zero, and long
//! memory.

use super::elements::ELEMENTS;
use super::stack_check::{CHECKED, UNCHECKED};
use super::{bytes, case, Worked};
use crate::case::Case;
use crate::names::on_or_off;
use sme_move::Refusal;

/// What makes a load a store.
const STORE: u32 = 0x0020_0000;

/// A load of slice 0 of tile 0 if not said otherwise, which is also run as
/// a store.
pub struct Example {
    pub name: &'static str,
    pub load: u32,
    pub vector_bytes: usize,
    /// Memory's address and length.
    pub memory: (u64, usize),
    /// Register 1, or the stack pointer where that is the base.
    pub base: u64,
    /// Register 2.
    pub offset: u64,
    /// The bits of predicate 0.
    pub bits: &'static [usize],
    pub expected: Expected,
}

pub enum Expected {
    Refused(Refusal),
    /// The bytes of an element; where each active one is, in ZA and in
    /// memory; and where in ZA the others are, which a load zeroes.
    Done {
        m: usize,
        moved: &'static [(usize, usize)],
        zeroed: &'static [usize],
    },
}

/// Refused for the byte at this address, which is one of this element.
pub const fn outside(address: u64, element: u64) -> Expected {
    Expected::Refused(Refusal::OutsideMemory { address, element })
}

const MINUS_4: u64 = u64::MAX - 3;
const MINUS_12: u64 = u64::MAX - 11;
const MINUS_64: u64 = u64::MAX - 63;

/// With the stack check on and off: none has a stack pointer that it would
/// refuse.
const EXAMPLES: [Example; 14] = [
    // Element 2 of four is at 203E, and memory ends at 2040.
    Example {
        name: "an element over the end of memory",
        load: 0xE082_0020,
        vector_bytes: 16,
        memory: (0x2000, 64),
        base: 0x2036,
        offset: 0,
        bits: &[0, 4, 8, 12],
        expected: outside(0x2040, 2),
    },
    Example {
        name: "the same without the elements outside",
        load: 0xE082_0020,
        vector_bytes: 16,
        memory: (0x2000, 64),
        base: 0x2036,
        offset: 0,
        bits: &[0, 4],
        expected: Expected::Done {
            m: 4,
            moved: &[(0, 0x36), (4, 0x3A)],
            zeroed: &[8, 12],
        },
    },
    // Its bytes 0 to 2 are outside.
    Example {
        name: "an element over the start of memory",
        load: 0xE0C2_0020,
        vector_bytes: 16,
        memory: (0x2000, 64),
        base: 0x1FFD,
        offset: 0,
        bits: &[0, 8],
        expected: outside(0x1FFD, 0),
    },
    // Element 0 is at 2^64 - 4 and ends at address 3.
    Example {
        name: "an element over 2^64, memory from address 0",
        load: 0xE0C2_0020,
        vector_bytes: 16,
        memory: (0, 64),
        base: MINUS_4,
        offset: 0,
        bits: &[0, 8],
        expected: outside(MINUS_4, 0),
    },
    Example {
        name: "the same without it",
        load: 0xE0C2_0020,
        vector_bytes: 16,
        memory: (0, 64),
        base: MINUS_4,
        offset: 0,
        bits: &[8],
        expected: Expected::Done {
            m: 8,
            moved: &[(8, 4)],
            zeroed: &[0],
        },
    },
    // Element 1 is at 2^64 - 4, and its byte 4 has address 0.
    Example {
        name: "an element over 2^64, memory up to 2^64",
        load: 0xE0C2_0020,
        vector_bytes: 16,
        memory: (MINUS_64, 64),
        base: MINUS_12,
        offset: 0,
        bits: &[0, 8],
        expected: outside(0, 1),
    },
    // Elements 1, 3, 5 and 7 are active; 5 is at 64, where memory ends.
    Example {
        name: "the lowest element outside is not the first active one",
        load: 0xE042_0020,
        vector_bytes: 16,
        memory: (0, 64),
        base: 54,
        offset: 0,
        bits: &[2, 6, 10, 14],
        expected: outside(64, 5),
    },
    // 5 is at 63.
    Example {
        name: "byte 1 of the lowest element outside",
        load: 0xE042_0020,
        vector_bytes: 16,
        memory: (0, 64),
        base: 53,
        offset: 0,
        bits: &[2, 6, 10, 14],
        expected: outside(64, 5),
    },
    Example {
        name: "byte 15 of an element",
        load: 0xE1C2_0020,
        vector_bytes: 16,
        memory: (0, 64),
        base: 1,
        offset: 3,
        bits: &[0],
        expected: outside(64, 0),
    },
    // Base and offset are number 31: the stack pointer and zero.
    Example {
        name: "no element active, stack pointer not aligned",
        load: 0xE09F_03E0,
        vector_bytes: 16,
        memory: (0, 0),
        base: 0x1008,
        offset: 0,
        bits: &[1, 2, 3, 5, 6, 7, 9, 10, 11, 13, 14, 15],
        expected: Expected::Done {
            m: 4,
            moved: &[],
            zeroed: &[0, 4, 8, 12],
        },
    },
    Example {
        name: "the stack pointer as base, aligned",
        load: 0xE09F_03E0,
        vector_bytes: 16,
        memory: (0x1000, 64),
        base: 0x1010,
        offset: 0,
        bits: &[0, 12],
        expected: Expected::Done {
            m: 4,
            moved: &[(0, 16), (12, 28)],
            zeroed: &[4, 8],
        },
    },
    // Column 3 of tile 1: element e is at byte 12 of vector 4e + 1.
    Example {
        name: "a column with inactive elements at its end",
        load: 0xE082_8027,
        vector_bytes: 32,
        memory: (0, 64),
        base: 7,
        offset: 0,
        bits: &[4, 8],
        expected: Expected::Done {
            m: 4,
            moved: &[(172, 11), (300, 15)],
            zeroed: &[44, 428, 556, 684, 812, 940],
        },
    },
    // 16 times the offset is 2^64 + 16.
    Example {
        name: "the offset register times m wraps",
        load: 0xE1C2_0020,
        vector_bytes: 32,
        memory: (0, 64),
        base: 9,
        offset: 0x1000_0000_0000_0001,
        bits: &[0, 16],
        expected: Expected::Done {
            m: 16,
            moved: &[(0, 25), (16, 41)],
            zeroed: &[],
        },
    },
    Example {
        name: "memory of one element, the others outside at both ends",
        load: 0xE042_0020,
        vector_bytes: 16,
        memory: (0x100, 2),
        base: 0xFC,
        offset: 0,
        bits: &[4],
        expected: Expected::Done {
            m: 2,
            moved: &[(4, 0)],
            zeroed: &[0, 2, 6, 8, 10, 12, 14],
        },
    },
];

/// In memory of more bytes than 16 bits can count, with the stack check on
/// and off too.
const LONG: [Example; 6] = [
    Example {
        name: "the middle of 1 MiB",
        load: 0xE082_0020,
        vector_bytes: 16,
        memory: (0x2000, 0x10_0000),
        base: 0x8_2003,
        offset: 0,
        bits: &[0, 4, 8, 12],
        expected: Expected::Done {
            m: 4,
            moved: &[(0, 0x8_0003), (4, 0x8_0007), (8, 0x8_000B), (12, 0x8_000F)],
            zeroed: &[],
        },
    },
    Example {
        name: "the last bytes of 1 MiB",
        load: 0xE0C2_0020,
        vector_bytes: 16,
        memory: (0, 0x10_0000),
        base: 0xF_FFF0,
        offset: 0,
        bits: &[0, 8],
        expected: Expected::Done {
            m: 8,
            moved: &[(0, 0xF_FFF0), (8, 0xF_FFF8)],
            zeroed: &[],
        },
    },
    Example {
        name: "the last bytes of 1 MiB and an inactive element behind",
        load: 0xE0C2_0020,
        vector_bytes: 16,
        memory: (0, 0x10_0000),
        base: 0xF_FFF8,
        offset: 0,
        bits: &[0],
        expected: Expected::Done {
            m: 8,
            moved: &[(0, 0xF_FFF8)],
            zeroed: &[8],
        },
    },
    // Element 1 has byte 65,536 in it.
    Example {
        name: "before and behind byte 65,536",
        load: 0xE0C2_0020,
        vector_bytes: 16,
        memory: (0x300, 0x1_0100),
        base: 0x1_02F3,
        offset: 0,
        bits: &[0, 8],
        expected: Expected::Done {
            m: 8,
            moved: &[(0, 0xFFF3), (8, 0xFFFB)],
            zeroed: &[],
        },
    },
    // Element 2 of four is at 65,535, and memory has 65,537 bytes.
    Example {
        name: "an element over the end of 65,537 bytes",
        load: 0xE082_0020,
        vector_bytes: 16,
        memory: (0, 0x1_0001),
        base: 0xFFF7,
        offset: 0,
        bits: &[0, 4, 8, 12],
        expected: outside(0x1_0001, 2),
    },
    Example {
        name: "the byte before 1 MiB",
        load: 0xE002_0020,
        vector_bytes: 16,
        memory: (0x2000, 0x10_0000),
        base: 0x1FFF,
        offset: 0,
        bits: &[0, 1],
        expected: outside(0x1FFF, 0),
    },
];

pub fn list() -> Vec<Worked> {
    let mut all = with_stack_check(true, &CHECKED);
    all.extend(with_stack_check(false, &UNCHECKED));
    all.extend(there_and_back());
    all
}

/// The examples with the stack check in one position, those of this position
/// alone among them.
fn with_stack_check(on: bool, alone: &[Example]) -> Vec<Worked> {
    let examples = EXAMPLES.iter().chain(&LONG).chain(&ELEMENTS).chain(alone);
    let both = |example: &Example| [example.loaded(), example.stored()];
    let mut all: Vec<Worked> = examples.flat_map(both).collect();
    for worked in &mut all {
        worked.case.settings.stack_check = on;
        worked.name += &format!(", stack check {}", on_or_off(on));
    }
    all
}

impl Example {
    fn case(&self, word: u32) -> Case {
        let mut case = case(self.vector_bytes, word);
        (case.settings.memory_address, _) = self.memory;
        case.memory = bytes(self.memory.1, 200);
        (case.x[1], case.x[2], case.x[31]) = (self.base, self.offset, self.base);
        for bit in self.bits {
            case.p[bit / 8] |= 1 << (bit % 8);
        }
        case
    }

    /// With ZA and memory as they were.
    fn worked(&self, kind: &str, word: u32) -> Worked {
        let case = self.case(word);
        let answer = match self.expected {
            Expected::Refused(refusal) => Err(refusal),
            Expected::Done { .. } => Ok(()),
        };
        Worked {
            name: format!("{kind}: {}", self.name),
            z: case.z.clone(),
            za: case.za.clone(),
            memory: case.memory.clone(),
            case,
            answer,
        }
    }

    fn loaded(&self) -> Worked {
        let mut worked = self.worked("load", self.load);
        if let Expected::Done { m, moved, zeroed } = self.expected {
            for &(place, from) in moved {
                worked.za[place..place + m].copy_from_slice(&worked.memory[from..from + m]);
            }
            for &place in zeroed {
                worked.za[place..place + m].fill(0);
            }
        }
        worked
    }

    fn stored(&self) -> Worked {
        let mut worked = self.worked("store", self.load | STORE);
        if let Expected::Done { m, moved, .. } = self.expected {
            for &(place, to) in moved {
                worked.memory[to..to + m].copy_from_slice(&worked.za[place..place + m]);
            }
        }
        worked
    }
}

/// Row 1 of tile 3 of 8-byte elements to memory, and back where it was after
/// its bytes in ZA are gone.
fn there_and_back() -> [Worked; 2] {
    let row = 11 * 32..12 * 32;
    let whole = |name: &str, word: u32| Worked {
        name: name.to_string(),
        case: case(32, word),
        answer: Ok(()),
        z: bytes(32 * 32, 11),
        za: bytes(32 * 32, 97),
        memory: bytes(40, 200),
    };
    let mut store = whole("a row of 8-byte elements to memory", 0xE0E2_0027);
    let mut load = whole("and back", 0xE0C2_0027);
    store.memory[5..37].copy_from_slice(&store.za[row.clone()]);
    load.memory.clone_from(&store.memory);
    store.case.memory = bytes(40, 200);
    load.case.memory.clone_from(&store.memory);
    load.case.za[row].fill(0xEE);
    for case in [&mut store.case, &mut load.case] {
        (case.x[1], case.x[2]) = (5, 0);
        case.p[..4].fill(0xFF);
    }
    [store, load]
}
