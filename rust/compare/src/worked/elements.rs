//! Worked examples of the element that answer 7 carries (request 6), beside
//! those of `accesses`: each a load that is also run as a store.

use super::accesses::{outside, Example};

const MINUS_8: u64 = u64::MAX - 7;
const MINUS_28: u64 = u64::MAX - 27;
const MINUS_64: u64 = u64::MAX - 63;

pub const ELEMENTS: [Example; 9] = [
    // Example 10 of document 01, section 7: element e of sixteen is at e - 4.
    Example {
        name: "example 10",
        load: 0xE002_0020,
        vector_bytes: 16,
        memory: (0, 64),
        base: MINUS_8,
        offset: 4,
        bits: &[0, 1, 2, 3, 4, 5, 6, 7, 8, 9, 10, 11, 12, 13, 14, 15],
        expected: outside(u64::MAX - 3, 0),
    },
    Example {
        name: "example 10 from element 2 on",
        load: 0xE002_0020,
        vector_bytes: 16,
        memory: (0, 64),
        base: MINUS_8,
        offset: 4,
        bits: &[2, 3, 4, 5, 6, 7, 8, 9, 10, 11, 12, 13, 14, 15],
        expected: outside(u64::MAX - 1, 2),
    },
    // Element 3 of eight is at 2^64 - 4; those before it are in memory.
    Example {
        name: "a middle element over 2^64, memory up to 2^64",
        load: 0xE0C2_0020,
        vector_bytes: 64,
        memory: (MINUS_64, 64),
        base: MINUS_28,
        offset: 0,
        bits: &[0, 8, 16, 24, 32],
        expected: outside(0, 3),
    },
    Example {
        name: "a middle element over 2^64, memory from address 0",
        load: 0xE0C2_0020,
        vector_bytes: 64,
        memory: (0, 64),
        base: MINUS_28,
        offset: 0,
        bits: &[24, 32],
        expected: outside(u64::MAX - 3, 3),
    },
    // Element 5 of eight is at 2FFF, and memory begins at 3000.
    Example {
        name: "a middle element over the start of memory",
        load: 0xE042_0020,
        vector_bytes: 16,
        memory: (0x3000, 64),
        base: 0x2FF5,
        offset: 0,
        bits: &[10, 12, 14],
        expected: outside(0x2FFF, 5),
    },
    // Element 12 of sixteen is at 50C4, and memory ends at 50C8.
    Example {
        name: "an element of 16 bytes over the end of memory",
        load: 0xE1C2_0020,
        vector_bytes: 256,
        memory: (0x5000, 200),
        base: 0x5004,
        offset: 0,
        bits: &[0, 80, 176, 192, 208],
        expected: outside(0x50C8, 12),
    },
    // Column 0 of tile 3: element 6 is in vector 51, and at 58 in memory.
    Example {
        name: "an element of a column over the end of memory",
        load: 0xE0C2_8026,
        vector_bytes: 64,
        memory: (0, 64),
        base: 10,
        offset: 0,
        bits: &[0, 16, 48, 56],
        expected: outside(64, 6),
    },
    // Element 6 of eight is at 64, where memory ends, and inactive.
    Example {
        name: "after an inactive element outside memory",
        load: 0xE042_0020,
        vector_bytes: 16,
        memory: (0, 64),
        base: 52,
        offset: 0,
        bits: &[2, 10, 14],
        expected: outside(66, 7),
    },
    // Element 4 of eight is at address 0.
    Example {
        name: "all elements outside memory, on both sides of 2^64",
        load: 0xE042_0020,
        vector_bytes: 16,
        memory: (0x1000, 64),
        base: MINUS_8,
        offset: 0,
        bits: &[0, 2, 4, 6, 8, 10, 12, 14],
        expected: outside(MINUS_8, 0),
    },
];
