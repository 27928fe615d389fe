//! The rows of the table of words, as data: those of document 01, section
//! 4, and those that requests 1 and 2 added.
//!
//! Only the test inputs and the unit tests use them; decoding and encoding
//! are written out by hand and know nothing of them.

pub use super::row::{Field, Row, PATTERNS};

use crate::flat::{self, place};

const fn field(place: usize, high: u32, low: u32) -> Field {
    numbered(place, high, low, 0, 1)
}

const fn numbered(place: usize, high: u32, low: u32, first: u8, scale: u8) -> Field {
    Field {
        place,
        high,
        low,
        first,
        scale,
    }
}

const V: Field = field(place::DIRECTION, 15, 15);
const RS: Field = numbered(place::INDEX, 14, 13, 12, 1);
const RV: Field = numbered(place::INDEX, 14, 13, 8, 1);
const PG: Field = field(place::PREDICATE, 12, 10);
const ZN: Field = field(place::FIRST_VECTOR, 9, 5);
const ZD: Field = field(place::FIRST_VECTOR, 4, 0);
const RM: Field = field(place::OFFSET_REGISTER, 20, 16);
const RN: Field = field(place::BASE, 9, 5);

const fn tile(high: u32, low: u32) -> Field {
    field(place::TILE, high, low)
}

const fn offset(high: u32, low: u32) -> Field {
    field(place::OFFSET, high, low)
}

/// A row of the moves between one vector register and a tile.
const fn tile_move(kind: u8, level: u8, m: u8, base: u32, fields: &'static [Field]) -> Row {
    Row {
        base,
        level,
        kind,
        element_bytes: m,
        vectors: 1,
        fields,
    }
}

const fn to_tile(m: u8, base: u32, fields: &'static [Field]) -> Row {
    tile_move(flat::MOVA_TO_TILE, 1, m, base, fields)
}

const fn from_tile(m: u8, base: u32, fields: &'static [Field]) -> Row {
    tile_move(flat::MOVA_FROM_TILE, 1, m, base, fields)
}

const fn zeroing_from_tile(m: u8, base: u32, fields: &'static [Field]) -> Row {
    tile_move(flat::MOVAZ_FROM_TILE, 3, m, base, fields)
}

/// The fields of the array forms. The first register is the number of
/// registers times Zd.
const OF_TWO: &[Field] = &[RV, offset(7, 5), numbered(place::FIRST_VECTOR, 4, 1, 0, 2)];
const OF_FOUR: &[Field] = &[RV, offset(7, 5), numbered(place::FIRST_VECTOR, 4, 2, 0, 4)];

/// A row of the array forms.
const fn array(kind: u8, level: u8, vectors: u8, base: u32, fields: &'static [Field]) -> Row {
    Row {
        base,
        level,
        kind,
        element_bytes: 0,
        vectors,
        fields,
    }
}

/// The fields of the loads and stores, which differ by element size in what
/// bits 3:0 name.
const OF_BYTES: &[Field] = &[RM, V, RS, PG, RN, offset(3, 0)];
const OF_HALVES: &[Field] = &[RM, V, RS, PG, RN, tile(3, 3), offset(2, 0)];
const OF_WORDS: &[Field] = &[RM, V, RS, PG, RN, tile(3, 2), offset(1, 0)];
const OF_DOUBLES: &[Field] = &[RM, V, RS, PG, RN, tile(3, 1), offset(0, 0)];
const OF_QUADS: &[Field] = &[RM, V, RS, PG, RN, tile(3, 0)];

/// A row of the loads and stores.
const fn access(kind: u8, m: u8, base: u32, fields: &'static [Field]) -> Row {
    Row {
        base,
        level: 1,
        kind,
        element_bytes: m,
        vectors: 0,
        fields,
    }
}

/// The rows, in the order of the table: document 01's first, then those of
/// request 1, then those of request 2.
pub const ROWS: [Row; 29] = [
    to_tile(1, 0xC000_0000, &[V, RS, PG, ZN, offset(3, 0)]),
    to_tile(2, 0xC040_0000, &[V, RS, PG, ZN, tile(3, 3), offset(2, 0)]),
    to_tile(4, 0xC080_0000, &[V, RS, PG, ZN, tile(3, 2), offset(1, 0)]),
    to_tile(8, 0xC0C0_0000, &[V, RS, PG, ZN, tile(3, 1), offset(0, 0)]),
    to_tile(16, 0xC0C1_0000, &[V, RS, PG, ZN, tile(3, 0)]),
    zeroing_from_tile(1, 0xC002_0200, &[V, RS, offset(8, 5), ZD]),
    zeroing_from_tile(2, 0xC042_0200, &[V, RS, tile(8, 8), offset(7, 5), ZD]),
    zeroing_from_tile(4, 0xC082_0200, &[V, RS, tile(8, 7), offset(6, 5), ZD]),
    zeroing_from_tile(8, 0xC0C2_0200, &[V, RS, tile(8, 6), offset(5, 5), ZD]),
    zeroing_from_tile(16, 0xC0C3_0200, &[V, RS, tile(8, 5), ZD]),
    array(flat::MOVA_ARRAY, 2, 4, 0xC006_0C00, OF_FOUR),
    array(flat::MOVAZ_ARRAY, 3, 2, 0xC006_0A00, OF_TWO),
    access(flat::STORE, 1, 0xE020_0000, OF_BYTES),
    from_tile(1, 0xC002_0000, &[V, RS, PG, offset(8, 5), ZD]),
    from_tile(2, 0xC042_0000, &[V, RS, PG, tile(8, 8), offset(7, 5), ZD]),
    from_tile(4, 0xC082_0000, &[V, RS, PG, tile(8, 7), offset(6, 5), ZD]),
    from_tile(8, 0xC0C2_0000, &[V, RS, PG, tile(8, 6), offset(5, 5), ZD]),
    from_tile(16, 0xC0C3_0000, &[V, RS, PG, tile(8, 5), ZD]),
    array(flat::MOVA_ARRAY, 2, 2, 0xC006_0800, OF_TWO),
    array(flat::MOVAZ_ARRAY, 3, 4, 0xC006_0E00, OF_FOUR),
    access(flat::STORE, 2, 0xE060_0000, OF_HALVES),
    access(flat::STORE, 4, 0xE0A0_0000, OF_WORDS),
    access(flat::STORE, 8, 0xE0E0_0000, OF_DOUBLES),
    access(flat::STORE, 16, 0xE1E0_0000, OF_QUADS),
    access(flat::LOAD, 1, 0xE000_0000, OF_BYTES),
    access(flat::LOAD, 2, 0xE040_0000, OF_HALVES),
    access(flat::LOAD, 4, 0xE080_0000, OF_WORDS),
    access(flat::LOAD, 8, 0xE0C0_0000, OF_DOUBLES),
    access(flat::LOAD, 16, 0xE1C0_0000, OF_QUADS),
];
