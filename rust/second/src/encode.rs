//! Encoding of the eleven numbers (document 01, section 4, with the rows
//! that requests 1 and 2 added to its table; refusal 8 of section 6).
//!
//! Each kind starts from the base words of the table, checks every number
//! against its range, and ors the fields in. A number that the kind does
//! not have must be 0, or two flat forms would give one word.

use crate::flat::{self, Flat};
use crate::refusal::Refusal;

/// Encodes an operation, or refuses it.
pub fn encode(operation: &Flat) -> Result<u32, Refusal> {
    let word = match operation.kind {
        flat::MOVA_TO_TILE => mova_to_tile(operation),
        flat::MOVAZ_FROM_TILE => movaz_from_tile(operation),
        flat::MOVA_ARRAY => mova_array(operation),
        flat::MOVAZ_ARRAY => movaz_array(operation),
        flat::STORE => store(operation),
        flat::MOVA_FROM_TILE => mova_from_tile(operation),
        flat::LOAD => load(operation),
        _ => None,
    };
    word.ok_or(Refusal::Field)
}

/// MOVA to tile, five element sizes.
fn mova_to_tile(f: &Flat) -> Option<u32> {
    let base = match f.element_bytes {
        1 => 0xC000_0000,
        2 => 0xC040_0000,
        4 => 0xC080_0000,
        8 => 0xC0C0_0000,
        16 => 0xC0C1_0000,
        _ => return None,
    };
    exactly(f.vectors, 1)?;
    exactly(f.base, 0)?;
    exactly(f.offset_register, 0)?;
    let v = up_to(f.direction, 1)?;
    let rs = register_from(f.index, 12)?;
    let pg = up_to(f.predicate, 7)?;
    let zn = up_to(f.first_vector, 31)?;
    let slice = tile_with_offset(f)?;
    Some(base | v << 15 | rs << 13 | pg << 10 | zn << 5 | slice)
}

/// MOVA from tile: Pg in bits 12:10, bit 9 clear.
fn mova_from_tile(f: &Flat) -> Option<u32> {
    let pg = up_to(f.predicate, 7)?;
    Some(from_tile(f)? | pg << 10)
}

/// MOVAZ from tile: no governing predicate, bit 9 set.
fn movaz_from_tile(f: &Flat) -> Option<u32> {
    exactly(f.predicate, 0)?;
    Some(from_tile(f)? | 1 << 9)
}

/// What the two moves from a tile share, five element sizes: MOVAZ has the
/// bases of MOVA with bit 9 beside.
fn from_tile(f: &Flat) -> Option<u32> {
    let base = match f.element_bytes {
        1 => 0xC002_0000,
        2 => 0xC042_0000,
        4 => 0xC082_0000,
        8 => 0xC0C2_0000,
        16 => 0xC0C3_0000,
        _ => return None,
    };
    exactly(f.vectors, 1)?;
    exactly(f.base, 0)?;
    exactly(f.offset_register, 0)?;
    let v = up_to(f.direction, 1)?;
    let rs = register_from(f.index, 12)?;
    let zd = up_to(f.first_vector, 31)?;
    let slice = tile_with_offset(f)?;
    Some(base | v << 15 | rs << 13 | slice << 5 | zd)
}

/// MOVA array, two and four registers.
fn mova_array(f: &Flat) -> Option<u32> {
    match f.vectors {
        2 => Some(0xC006_0800 | array_fields(f)?),
        4 => Some(0xC006_0C00 | array_fields(f)?),
        _ => None,
    }
}

/// MOVAZ array, two and four registers.
fn movaz_array(f: &Flat) -> Option<u32> {
    match f.vectors {
        2 => Some(0xC006_0A00 | array_fields(f)?),
        4 => Some(0xC006_0E00 | array_fields(f)?),
        _ => None,
    }
}

/// The fields that the array forms share, and the numbers that none of them
/// has. The first register is a multiple of their number, 2 or 4, and so
/// already stands at its place: Zd times 4 in bits 4:2, or Zd times 2 in
/// bits 4:1, is the register number in bits 4:0.
fn array_fields(f: &Flat) -> Option<u32> {
    exactly(f.element_bytes, 0)?;
    exactly(f.direction, 0)?;
    exactly(f.tile, 0)?;
    exactly(f.predicate, 0)?;
    exactly(f.base, 0)?;
    exactly(f.offset_register, 0)?;
    let rv = register_from(f.index, 8)?;
    let offset = up_to(f.offset, 7)?;
    let first = up_to(f.first_vector, 32 - f.vectors)?;
    exactly(f.first_vector % f.vectors, 0)?;
    Some(rv << 13 | offset << 5 | first)
}

/// ST1, five element sizes.
fn store(f: &Flat) -> Option<u32> {
    let base = match f.element_bytes {
        1 => 0xE020_0000,
        2 => 0xE060_0000,
        4 => 0xE0A0_0000,
        8 => 0xE0E0_0000,
        16 => 0xE1E0_0000,
        _ => return None,
    };
    Some(base | access_fields(f)?)
}

/// LD1, five element sizes.
fn load(f: &Flat) -> Option<u32> {
    let base = match f.element_bytes {
        1 => 0xE000_0000,
        2 => 0xE040_0000,
        4 => 0xE080_0000,
        8 => 0xE0C0_0000,
        16 => 0xE1C0_0000,
        _ => return None,
    };
    Some(base | access_fields(f)?)
}

/// The fields that loads and stores share. They move no vector register.
fn access_fields(f: &Flat) -> Option<u32> {
    exactly(f.first_vector, 0)?;
    exactly(f.vectors, 0)?;
    let rm = up_to(f.offset_register, 31)?;
    let v = up_to(f.direction, 1)?;
    let rs = register_from(f.index, 12)?;
    let pg = up_to(f.predicate, 7)?;
    let rn = up_to(f.base, 31)?;
    let slice = tile_with_offset(f)?;
    Some(rm << 16 | v << 15 | rs << 13 | pg << 10 | rn << 5 | slice)
}

/// The four bits that tile and offset share. There are m tiles of m-byte
/// elements (section 3) and 16/m offsets for each, so that tile number and
/// offset together count the sixteen values.
fn tile_with_offset(f: &Flat) -> Option<u32> {
    let offsets = 16 / f.element_bytes;
    let tile = up_to(f.tile, f.element_bytes - 1)?;
    let offset = up_to(f.offset, offsets - 1)?;
    Some(tile * u32::from(offsets) + offset)
}

/// A number from 0 to `highest`, as wide as a word for shifting.
fn up_to(value: u8, highest: u8) -> Option<u32> {
    (value <= highest).then_some(u32::from(value))
}

/// One of four registers, `first` to `first` + 3, as the two bits that name
/// it.
fn register_from(value: u8, first: u8) -> Option<u32> {
    if value < first || value > first + 3 {
        return None;
    }
    Some(u32::from(value - first))
}

/// Nothing but the one value that the form allows.
fn exactly(value: u8, wanted: u8) -> Option<()> {
    (value == wanted).then_some(())
}
