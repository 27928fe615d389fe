//! The words of a listing, by what they are answered in its state.

use super::state::Aimed;
use crate::case::{Case, Outcome};
use crate::generate::words::without_encoding;
use crate::names::{is_access, Named, FAULT};
use crate::rows::TABLE;
use crate::view::View;
use second::decode::decode;
use second::flat::place;
use second::inputs::random::Random;
use second::inputs::rows::Row;
use sme_move::Refusal;

/// How often a load or store is drawn that is to be done, or a word that is
/// to be refused for its registers. The state may have none.
const TRIES: usize = 16;

/// Draws words for a state with nothing wrong in settings and lengths, both
/// switches on, and a level above 0.
pub struct Words<'a> {
    pub case: &'a mut Case,
    pub aimed: &'a Aimed,
}

impl Words<'_> {
    /// A word that is done: a row of the level, each with the same share, but
    /// for loads and stores that the state does not have.
    pub fn done(&mut self, random: &mut Random) -> u32 {
        for _ in 0..TRIES {
            let row = self.row(random, |_| true);
            self.case.word = aimed_word(random, row, self.aimed);
            if self.refusal().is_none() {
                return self.case.word;
            }
        }
        let moved = self.row(random, |row| !is_access(row.kind()));
        moved.word(&moved.random(random))
    }

    /// A word that is refused, for this cause if the state has such a word.
    pub fn refused(&mut self, random: &mut Random, aim: Option<Refusal>) -> u32 {
        let cause = aim.unwrap_or(Refusal::Undecodable);
        if cause == Refusal::Undecodable {
            return self.undecodable(random);
        }
        for _ in 0..TRIES {
            self.case.word = self.access(random, cause);
            if self.refusal() == Some(cause) {
                return self.case.word;
            }
        }
        self.undecodable(random)
    }

    /// Any word: done, refused, or of random bits.
    pub fn any(&mut self, random: &mut Random) -> u32 {
        match random.below(4) {
            0 | 1 => self.done(random),
            2 => self.refused(random, Some(FAULT)),
            _ => random.word(),
        }
    }

    /// A word without an encoding, or one of a higher level.
    fn undecodable(&mut self, random: &mut Random) -> u32 {
        let row = &TABLE[random.below(TABLE.len())];
        let word = row.word(&row.random(random));
        if u64::from(row.level) > self.case.settings.level {
            return word;
        }
        without_encoding(random, word)
    }

    /// A load or store that may be refused so: by the stack pointer, by a base
    /// that is aimed and yet leaves elements outside, or by any registers.
    fn access(&mut self, random: &mut Random, cause: Refusal) -> u32 {
        let row = self.row(random, |row| is_access(row.kind()));
        if cause == Refusal::StackMisaligned {
            let mut bits = row.random(random);
            set_field(row, &mut bits, place::BASE, 31);
            row.word(&bits)
        } else if random.chance(1, 2) {
            aimed_word(random, row, self.aimed)
        } else {
            row.word(&row.random(random))
        }
    }

    /// A row that decodes at the level, each of those wanted with the same
    /// share.
    fn row(&self, random: &mut Random, wanted: impl Fn(&Row) -> bool) -> &'static Row {
        loop {
            let row = &TABLE[random.below(TABLE.len())];
            if u64::from(row.level) <= self.case.settings.level && wanted(row) {
                return row;
            }
        }
    }

    /// What the case's word is refused for, if it is.
    fn refusal(&self) -> Option<Refusal> {
        let case = &*self.case;
        if decode(case.word, case.settings.level as u8).is_err() {
            return Some(Refusal::Undecodable);
        }
        let nothing = Outcome::default();
        let view = View::new(case, &nothing);
        view.access()?;
        if case.settings.stack_check && view.stack_misaligned() {
            return Some(Refusal::StackMisaligned);
        }
        let outside = view.active.iter().any(|&e| !view.in_memory(e));
        outside.then_some(FAULT)
    }
}

/// A word of the row; of loads and stores one by registers that are aimed.
fn aimed_word(random: &mut Random, row: &Row, aimed: &Aimed) -> u32 {
    let mut bits = row.random(random);
    set_field(row, &mut bits, place::BASE, random.pick(&aimed.bases));
    let offset = random.pick(&aimed.offsets);
    set_field(row, &mut bits, place::OFFSET_REGISTER, offset);
    row.word(&bits)
}

/// Sets the bits of one field, if the row has it.
fn set_field(row: &Row, bits: &mut [u32], place: usize, value: u32) {
    for (field, own) in row.fields.iter().zip(bits) {
        if field.place == place {
            *own = value;
        }
    }
}
