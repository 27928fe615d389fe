//! Worked examples of a misaligned stack pointer as base, with the stack check
//! on and off (request 4): example 9 of document 01, section 7, as a load and
//! as a store, and the like with wider elements.

use super::accesses::{outside, Example, Expected};
use sme_move::Refusal;

/// Memory that has the addresses from the stack pointer on, and memory that
/// has not.
const HERE: (u64, usize) = (0x1000, 64);
const ELSEWHERE: (u64, usize) = (0x2000, 64);
/// Memory that ends in element 3 of four bytes.
const SHORT: (u64, usize) = (0x1000, 22);

/// With the check on: 6, also where 7 would be given otherwise.
pub const CHECKED: [Example; 4] = [
    bytes("bytes", HERE, MISALIGNED),
    bytes("bytes, memory elsewhere", ELSEWHERE, MISALIGNED),
    last_of_four("the last element active", HERE, MISALIGNED),
    last_of_four("memory ends in it", SHORT, MISALIGNED),
];

/// The same with the check off: done, or 7.
pub const UNCHECKED: [Example; 4] = [
    bytes("bytes", HERE, BYTES_MOVED),
    bytes("bytes, memory elsewhere", ELSEWHERE, outside(0x1008, 0)),
    last_of_four("the last element active", HERE, LAST_MOVED),
    last_of_four("memory ends in it", SHORT, outside(0x1016, 3)),
];

const MISALIGNED: Expected = Expected::Refused(Refusal::StackMisaligned);

/// Row 0 and addresses 1008 to 1017.
const BYTES_MOVED: Expected = Expected::Done {
    m: 1,
    moved: &[
        (0, 8),
        (1, 9),
        (2, 10),
        (3, 11),
        (4, 12),
        (5, 13),
        (6, 14),
        (7, 15),
        (8, 16),
        (9, 17),
        (10, 18),
        (11, 19),
        (12, 20),
        (13, 21),
        (14, 22),
        (15, 23),
    ],
    zeroed: &[],
};

/// Element 3 and addresses 1014 to 1017.
const LAST_MOVED: Expected = Expected::Done {
    m: 4,
    moved: &[(12, 20)],
    zeroed: &[0, 4, 8],
};

/// Example 9 with all elements active.
const fn bytes(name: &'static str, memory: (u64, usize), expected: Expected) -> Example {
    let all = &[0, 1, 2, 3, 4, 5, 6, 7, 8, 9, 10, 11, 12, 13, 14, 15];
    example(name, 0xE01F_03E0, memory, all, expected)
}

/// Elements of four bytes, the last one active.
const fn last_of_four(name: &'static str, memory: (u64, usize), expected: Expected) -> Example {
    example(name, 0xE09F_03E0, memory, &[12], expected)
}

/// Base and offset are number 31: the stack pointer, which is not aligned, and
/// zero.
const fn example(
    name: &'static str,
    load: u32,
    memory: (u64, usize),
    bits: &'static [usize],
    expected: Expected,
) -> Example {
    Example {
        name,
        load,
        vector_bytes: 16,
        memory,
        base: 0x1008,
        offset: 0,
        bits,
        expected,
    }
}
