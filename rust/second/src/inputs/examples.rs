//! The words of document 01, section 7, and what it says of them, and
//! words of our own for the rows that requests 1 and 2 added.

use crate::flat::{self, LENGTH};

/// Words that decode, the least level at which they do, and their eleven
/// numbers.
pub const DECODING: [(u32, u8, [u8; LENGTH]); 29] = [
    // Example 1.
    (
        0xC000_0000,
        1,
        [flat::MOVA_TO_TILE, 1, 0, 0, 0, 12, 0, 0, 0, 0, 1],
    ),
    // Example 2: vertical, W13, P3, Z5, tile 2, offset 1.
    (
        0xC080_ACA9,
        1,
        [flat::MOVA_TO_TILE, 4, 1, 2, 1, 13, 3, 5, 0, 0, 1],
    ),
    // Example 4: tile 15 of the 16-byte tiles.
    (
        0xC0C1_000F,
        1,
        [flat::MOVA_TO_TILE, 16, 0, 15, 0, 12, 0, 0, 0, 0, 1],
    ),
    // Example 5.
    (
        0xC002_0200,
        3,
        [flat::MOVAZ_FROM_TILE, 1, 0, 0, 0, 12, 0, 0, 0, 0, 1],
    ),
    // Example 6: vertical, W15, tile 6, offset 1, Z31.
    (
        0xC0C2_E3BF,
        3,
        [flat::MOVAZ_FROM_TILE, 8, 1, 6, 1, 15, 0, 31, 0, 0, 1],
    ),
    // Example 7: W10, offset 7, Z28 to Z31.
    (
        0xC006_4CFC,
        2,
        [flat::MOVA_ARRAY, 0, 0, 0, 7, 10, 0, 28, 0, 0, 4],
    ),
    // Example 8: W8, offset 3, Z10 and Z11.
    (
        0xC006_0A6A,
        3,
        [flat::MOVAZ_ARRAY, 0, 0, 0, 3, 8, 0, 10, 0, 0, 2],
    ),
    // Example 9: base is the stack pointer, offset register reads as zero.
    (
        0xE03F_03E0,
        1,
        [flat::STORE, 1, 0, 0, 0, 12, 0, 0, 31, 31, 0],
    ),
    // Example 10: base X1, offset register X2.
    (0xE022_0020, 1, [flat::STORE, 1, 0, 0, 0, 12, 0, 0, 1, 2, 0]),
    // Added: MOVA from the byte tile, example 5 with bit 9 clear.
    (
        0xC002_0000,
        1,
        [flat::MOVA_FROM_TILE, 1, 0, 0, 0, 12, 0, 0, 0, 0, 1],
    ),
    // Added: horizontal, W14, P5, offset 11, Z9.
    (
        0xC002_5569,
        1,
        [flat::MOVA_FROM_TILE, 1, 0, 0, 11, 14, 5, 9, 0, 0, 1],
    ),
    // Added: vertical, W12, P6, tile 1, offset 5, Z30.
    (
        0xC042_99BE,
        1,
        [flat::MOVA_FROM_TILE, 2, 1, 1, 5, 12, 6, 30, 0, 0, 1],
    ),
    // Added: vertical, W13, P3, tile 2, offset 1, Z5, as in example 2.
    (
        0xC082_AD25,
        1,
        [flat::MOVA_FROM_TILE, 4, 1, 2, 1, 13, 3, 5, 0, 0, 1],
    ),
    // Added: example 6 with bit 9 clear and P7.
    (
        0xC0C2_FDBF,
        1,
        [flat::MOVA_FROM_TILE, 8, 1, 6, 1, 15, 7, 31, 0, 0, 1],
    ),
    // Added: tile 15 of the 16-byte tiles, P1, Z2.
    (
        0xC0C3_05E2,
        1,
        [flat::MOVA_FROM_TILE, 16, 0, 15, 0, 12, 1, 2, 0, 0, 1],
    ),
    // Added: W11, offset 7, Z30 and Z31.
    (
        0xC006_68FE,
        2,
        [flat::MOVA_ARRAY, 0, 0, 0, 7, 11, 0, 30, 0, 0, 2],
    ),
    // Added: W8, offset 3, Z10 and Z11, as in example 8.
    (
        0xC006_086A,
        2,
        [flat::MOVA_ARRAY, 0, 0, 0, 3, 8, 0, 10, 0, 0, 2],
    ),
    // Added: W10, offset 7, Z28 to Z31, as in example 7.
    (
        0xC006_4EFC,
        3,
        [flat::MOVAZ_ARRAY, 0, 0, 0, 7, 10, 0, 28, 0, 0, 4],
    ),
    // Added: example 9 as a load.
    (
        0xE01F_03E0,
        1,
        [flat::LOAD, 1, 0, 0, 0, 12, 0, 0, 31, 31, 0],
    ),
    // Added: example 10 as a load.
    (0xE002_0020, 1, [flat::LOAD, 1, 0, 0, 0, 12, 0, 0, 1, 2, 0]),
    // Added: vertical, W14, P5, tile 1, offset 6, base X9, offset X17.
    (
        0xE071_D52E,
        1,
        [flat::STORE, 2, 1, 1, 6, 14, 5, 0, 9, 17, 0],
    ),
    // Added: horizontal, W13, P6, tile 2, offset 3, base X3, offset X30.
    (
        0xE0BE_386B,
        1,
        [flat::STORE, 4, 0, 2, 3, 13, 6, 0, 3, 30, 0],
    ),
    // Added: vertical, W15, P2, tile 5, offset 1, stack pointer, offset X4.
    (
        0xE0E4_EBEB,
        1,
        [flat::STORE, 8, 1, 5, 1, 15, 2, 0, 31, 4, 0],
    ),
    // Added: horizontal, W14, P7, tile 11, base X10, offset X21.
    (
        0xE1F5_5D4B,
        1,
        [flat::STORE, 16, 0, 11, 0, 14, 7, 0, 10, 21, 0],
    ),
    // Added: vertical, W13, P3, offset 14, base X25, offset X6.
    (
        0xE006_AF2E,
        1,
        [flat::LOAD, 1, 1, 0, 14, 13, 3, 0, 25, 6, 0],
    ),
    // Added: horizontal, W15, P4, tile 1, offset 5, base X18, offset zero.
    (
        0xE05F_724D,
        1,
        [flat::LOAD, 2, 0, 1, 5, 15, 4, 0, 18, 31, 0],
    ),
    // Added: vertical, W14, P1, tile 3, offset 2, base X29, offset X12.
    (
        0xE08C_C7AE,
        1,
        [flat::LOAD, 4, 1, 3, 2, 14, 1, 0, 29, 12, 0],
    ),
    // Added: horizontal, W13, P5, tile 6, offset 1, stack pointer, offset
    // X27.
    (
        0xE0DB_37ED,
        1,
        [flat::LOAD, 8, 0, 6, 1, 13, 5, 0, 31, 27, 0],
    ),
    // Added: vertical, W15, P6, tile 13, base X19, offset X8.
    (
        0xE1C8_FA6D,
        1,
        [flat::LOAD, 16, 1, 13, 0, 15, 6, 0, 19, 8, 0],
    ),
];

/// Words that decode at no level: those of examples 3 and 8, then added
/// ones: Q with a small size, MOVAZ from tile with a predicate, first
/// registers that are not multiples of 2 and of 4, and loads and stores with
/// bit 4 set or with Q (bit 24) and a small size.
pub const UNDECODABLE: [u32; 15] = [
    0xC000_0010,
    0xC041_0000,
    0xC006_0A01,
    0xC003_0000,
    0xC002_0600,
    0xC006_0801,
    0xC006_0E01,
    0xC006_0E02,
    0xE000_0010,
    0xE0E0_0010,
    0xE1C0_0010,
    0xE1E0_0010,
    0xE100_0000,
    0xE160_0000,
    0xE180_0000,
];

/// Eleven numbers that encoding refuses (example 11): a byte move with
/// offset 16, a byte tile 1, and four registers from Z2. What is said of a
/// byte move is taken of every tile move and of loads and stores, what is
/// said of four registers of both array kinds, and of two registers from Z1.
/// Then loads and stores of wider elements: tiles and offsets one too high,
/// and a vector register.
pub const UNENCODABLE: [[u8; LENGTH]; 20] = [
    [flat::MOVA_TO_TILE, 1, 0, 0, 16, 12, 0, 0, 0, 0, 1],
    [flat::MOVAZ_FROM_TILE, 1, 0, 0, 16, 12, 0, 0, 0, 0, 1],
    [flat::MOVA_FROM_TILE, 1, 0, 0, 16, 12, 0, 0, 0, 0, 1],
    [flat::STORE, 1, 0, 0, 16, 12, 0, 0, 0, 0, 0],
    [flat::MOVA_TO_TILE, 1, 0, 1, 0, 12, 0, 0, 0, 0, 1],
    [flat::MOVAZ_FROM_TILE, 1, 0, 1, 0, 12, 0, 0, 0, 0, 1],
    [flat::MOVA_FROM_TILE, 1, 0, 1, 0, 12, 0, 0, 0, 0, 1],
    [flat::STORE, 1, 0, 1, 0, 12, 0, 0, 0, 0, 0],
    [flat::MOVA_ARRAY, 0, 0, 0, 0, 8, 0, 2, 0, 0, 4],
    [flat::MOVAZ_ARRAY, 0, 0, 0, 0, 8, 0, 2, 0, 0, 4],
    [flat::MOVA_ARRAY, 0, 0, 0, 0, 8, 0, 1, 0, 0, 2],
    [flat::MOVAZ_ARRAY, 0, 0, 0, 0, 8, 0, 1, 0, 0, 2],
    [flat::LOAD, 1, 0, 0, 16, 12, 0, 0, 0, 0, 0],
    [flat::LOAD, 1, 0, 1, 0, 12, 0, 0, 0, 0, 0],
    [flat::STORE, 2, 0, 2, 0, 12, 0, 0, 0, 0, 0],
    [flat::LOAD, 4, 0, 0, 4, 12, 0, 0, 0, 0, 0],
    [flat::STORE, 8, 0, 8, 0, 12, 0, 0, 0, 0, 0],
    [flat::LOAD, 16, 0, 0, 1, 12, 0, 0, 0, 0, 0],
    [flat::STORE, 16, 0, 0, 0, 12, 0, 1, 0, 0, 0],
    [flat::LOAD, 2, 0, 0, 0, 12, 0, 0, 0, 0, 1],
];
