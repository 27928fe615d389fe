//! The word of a case.

use super::causes::Causes;
use crate::case::Case;
use crate::names::{is_access, Named};
use crate::rows::{encoding, Drawn, TABLE};
use second::flat::place;
use second::inputs::random::Random;
use second::inputs::rows::Row;
use second::inputs::words::NEIGHBOURS;
use sme_move::Refusal;

/// A row, each with the same share; of loads and stores alone, where only
/// they have the cause.
pub fn row(random: &mut Random, causes: &Causes, drawn: Drawn) -> &'static Row {
    let rows = &TABLE[drawn.rows()];
    loop {
        let row = &rows[random.below(rows.len())];
        if is_access(row.kind()) || !causes.needs_access() {
            return row;
        }
    }
}

/// Field bits for the row. Number 31 is drawn more often for base and
/// offset register than its share, and always for the base where the stack
/// pointer is to be refused.
pub fn fields(random: &mut Random, row: &Row, causes: &Causes) -> Vec<u32> {
    let mut bits = row.random(random);
    for (field, own) in row.fields.iter().zip(&mut bits) {
        let base = field.place == place::BASE;
        let register = base || field.place == place::OFFSET_REGISTER;
        if (base && causes.has(Refusal::StackMisaligned)) || (register && random.chance(1, 4)) {
            *own = field.top();
        }
    }
    bits
}

/// Makes the word undecodable: a word without an encoding at any level, or
/// a level below the word's own.
pub fn spoil(random: &mut Random, case: &mut Case, level: u8) {
    if random.chance(1, 2) {
        case.settings.level = random.below(usize::from(level)) as u64;
    } else {
        case.word = without_encoding(random, case.word);
        case.settings.level = random.below(4) as u64;
    }
}

/// A word without an encoding, often close to one that has one.
pub fn without_encoding(random: &mut Random, word: u32) -> u32 {
    loop {
        let candidate = match random.below(8) {
            0 => random.pick(&NEIGHBOURS),
            1 => random.word(),
            2 => random.word() & 0x00FF_FFFF | 0xC000_0000,
            3 => random.word() & 0x01FF_FFFF | 0xE000_0000,
            _ => word ^ 1 << random.below(32),
        };
        if encoding(candidate).is_none() {
            return candidate;
        }
    }
}
