//! Decoding of words (document 01, section 4, with the rows that requests 1
//! and 2 added to its table; answers of section 6).
//!
//! Written straight from the layouts: bits that tell the classes apart are
//! tested first, then the fixed bits of the class, then the fields are cut
//! out. Nothing here is shared with encoding but the names of the numbers.

use crate::flat::{self, Flat};
use crate::refusal::Refusal;

/// The highest feature level, SME2.1 (section 2).
const HIGHEST_LEVEL: u8 = 3;
/// Levels at which the features come in (section 4, last column).
const SME: u8 = 1;
const SME2: u8 = 2;
const SME2P1: u8 = 3;

/// Decodes `word` at feature level `level`.
///
/// The level is judged before the word, as the lowest number that applies
/// is given (section 6).
pub fn decode(word: u32, level: u8) -> Result<Flat, Refusal> {
    if level > HIGHEST_LEVEL {
        return Err(Refusal::Level);
    }
    // Bits 31:24 part the moves (C0) from the loads and stores (E0, and E1
    // for those of the largest element).
    let operation = match word >> 24 {
        0xC0 => decode_move(word, level),
        0xE0 | 0xE1 => decode_access(word, level),
        _ => None,
    };
    operation.ok_or(Refusal::Undecodable)
}

/// The moves: bits 21:17 tell the three classes of this unit apart. Other
/// values belong to other instructions or to none.
fn decode_move(word: u32, level: u8) -> Option<Flat> {
    match (word >> 17) & 0x1F {
        0b00000 if level >= SME => mova_to_tile(word),
        0b00001 => tile_to_vector(word, level),
        0b00011 => array_to_vectors(word, level),
        _ => None,
    }
}

/// MOVA to tile: V 15, Rs 14:13, Pg 12:10, Zn 9:5, tile and offset 3:0.
fn mova_to_tile(word: u32) -> Option<Flat> {
    let element_bytes = move_element_bytes(word)?;
    // Bit 4 is fixed at 0; every other bit is tested already or a field.
    if word & 0x10 != 0 {
        return None;
    }
    let (tile, offset) = split_slice(element_bytes, (word & 0xF) as u8);
    Some(Flat {
        kind: flat::MOVA_TO_TILE,
        element_bytes,
        direction: ((word >> 15) & 1) as u8,
        tile,
        offset,
        index: 12 + ((word >> 13) & 3) as u8,
        predicate: ((word >> 10) & 7) as u8,
        first_vector: ((word >> 5) & 31) as u8,
        base: 0,
        offset_register: 0,
        vectors: 1,
    })
}

/// The moves from a tile: V 15, Rs 14:13, tile and offset 8:5, Zd 4:0. Bit
/// 9 tells MOVAZ (1) from MOVA (0), which has Pg in bits 12:10 (page "MOVA
/// (tile to vector, single)").
fn tile_to_vector(word: u32, level: u8) -> Option<Flat> {
    let element_bytes = move_element_bytes(word)?;
    let zeroing = word & 0x200 != 0;
    let predicate = ((word >> 10) & 7) as u8;
    let kind = match (zeroing, predicate) {
        (false, _) if level >= SME => flat::MOVA_FROM_TILE,
        // MOVAZ has no governing predicate: bits 12:10 are fixed at 000.
        (true, 0) if level >= SME2P1 => flat::MOVAZ_FROM_TILE,
        _ => return None,
    };
    let (tile, offset) = split_slice(element_bytes, ((word >> 5) & 0xF) as u8);
    Some(Flat {
        kind,
        element_bytes,
        direction: ((word >> 15) & 1) as u8,
        tile,
        offset,
        index: 12 + ((word >> 13) & 3) as u8,
        predicate,
        first_vector: (word & 31) as u8,
        base: 0,
        offset_register: 0,
        vectors: 1,
    })
}

/// The array forms: Rv 14:13, offset 7:5. Bit 10 tells four registers (1)
/// from two, and bit 9 tells MOVAZ (1) from MOVA (page "MOVA (array to
/// vector, two registers)").
fn array_to_vectors(word: u32, level: u8) -> Option<Flat> {
    // Bits 23:22, 16, 15, 12 and 8 are fixed at 0 and bit 11 at 1.
    if word & 0x00C1_9900 != 0x0000_0800 {
        return None;
    }
    let vectors = if word & 0x400 != 0 { 4 } else { 2 };
    match word & 0x200 != 0 {
        false if level >= SME2 => array_form(word, flat::MOVA_ARRAY, vectors),
        true if level >= SME2P1 => array_form(word, flat::MOVAZ_ARRAY, vectors),
        _ => None,
    }
}

/// What the array forms have in common. Zd stands above one fixed 0 (two
/// registers) or two of them (four), so bits 4:0 are the first register and
/// it is a multiple of their number. Element size, direction, tile and
/// predicate are not theirs and stay 0.
fn array_form(word: u32, kind: u8, vectors: u8) -> Option<Flat> {
    let first_vector = (word & 31) as u8;
    if !first_vector.is_multiple_of(vectors) {
        return None;
    }
    Some(Flat {
        kind,
        element_bytes: 0,
        direction: 0,
        tile: 0,
        offset: ((word >> 5) & 7) as u8,
        index: 8 + ((word >> 13) & 3) as u8,
        predicate: 0,
        first_vector,
        base: 0,
        offset_register: 0,
        vectors,
    })
}

/// LD1 and ST1: Rm 20:16, V 15, Rs 14:13, Pg 12:10, Rn 9:5, tile and offset
/// 3:0. Bit 21 tells a store (1) from a load (page "LD1 (scalar plus scalar,
/// tile slice)").
fn decode_access(word: u32, level: u8) -> Option<Flat> {
    // Bit 4 is fixed at 0; every other bit is tested or a field.
    if level < SME || word & 0x10 != 0 {
        return None;
    }
    let element_bytes = access_element_bytes(word)?;
    let (tile, offset) = split_slice(element_bytes, (word & 0xF) as u8);
    let store = word & 0x0020_0000 != 0;
    Some(Flat {
        kind: if store { flat::STORE } else { flat::LOAD },
        element_bytes,
        direction: ((word >> 15) & 1) as u8,
        tile,
        offset,
        index: 12 + ((word >> 13) & 3) as u8,
        predicate: ((word >> 10) & 7) as u8,
        first_vector: 0,
        base: ((word >> 5) & 31) as u8,
        offset_register: ((word >> 16) & 31) as u8,
        vectors: 0,
    })
}

/// The element size of a tile move: its Q bit is bit 16.
fn move_element_bytes(word: u32) -> Option<u8> {
    element_bytes(word, word & 0x0001_0000 != 0)
}

/// The element size of a load or store: its Q bit is bit 24.
fn access_element_bytes(word: u32) -> Option<u8> {
    element_bytes(word, word & 0x0100_0000 != 0)
}

/// The element size, from the size bits 23:22 and the Q bit. Q goes with
/// the largest size only; with the others the word is not one of the table
/// (example 3 in section 7).
fn element_bytes(word: u32, q: bool) -> Option<u8> {
    match ((word >> 22) & 3, q) {
        (0b00, false) => Some(1),
        (0b01, false) => Some(2),
        (0b10, false) => Some(4),
        (0b11, false) => Some(8),
        (0b11, true) => Some(16),
        _ => None,
    }
}

/// Parts the four bits that tile and offset share: the wider the element,
/// the more bits name the tile. A byte tile is always 0, and the 16-byte
/// form has no offset.
fn split_slice(element_bytes: u8, four_bits: u8) -> (u8, u8) {
    match element_bytes {
        1 => (0, four_bits),
        2 => (four_bits >> 3, four_bits & 0b111),
        4 => (four_bits >> 2, four_bits & 0b11),
        8 => (four_bits >> 1, four_bits & 0b1),
        _ => (four_bits, 0),
    }
}
