//! Deliberately wrong decoders, to show that the comparison notices them.

use super::{archive, Block, Decoder};
use sme_move::{Fields, Kind};

/// One wrong decoder, with the first word of a block in which it shows.
pub struct WordMistake {
    pub name: &'static str,
    pub decode: Decoder,
    first: u32,
}

impl WordMistake {
    const ALL: &'static [WordMistake] = &[
        WordMistake {
            name: "OffsetOneMore",
            decode: |word, level| changed(word, level, |own| own.offset += 1),
            first: 0xC000_0000,
        },
        WordMistake {
            name: "LevelIgnored",
            decode: |word, _| archive(word, 3),
            first: 0xC000_0000,
        },
        WordMistake {
            name: "BitFourIgnored",
            decode: |word, level| archive(word & !0x10, level),
            first: 0xE1C0_0000,
        },
        WordMistake {
            name: "OneWordMissing",
            decode: |word, level| archive(word, level).filter(|_| word != 0xC082_BCEF),
            first: 0xC080_0000,
        },
        WordMistake {
            name: "BaseIsOffsetRegister",
            decode: |word, level| changed(word, level, |own| own.base = own.offset_register),
            first: 0xE000_0000,
        },
        WordMistake {
            name: "StoreAsLoad",
            decode: |word, level| changed(word, level, store_as_load),
            first: 0xE1E0_0000,
        },
    ];

    /// Every wrong decoder.
    pub fn all() -> impl Iterator<Item = &'static WordMistake> {
        WordMistake::ALL.iter()
    }

    pub fn named(name: &str) -> Option<&'static WordMistake> {
        WordMistake::all().find(|own| own.name == name)
    }

    /// The words that the mistake is looked for in, at level 1.
    pub fn blocks(&self) -> Vec<Block> {
        vec![Block::from(1, self.first)]
    }
}

/// What the archive decodes, with something changed.
fn changed(word: u32, level: u64, change: impl Fn(&mut Fields)) -> Option<Fields> {
    let mut own = archive(word, level)?;
    change(&mut own);
    Some(own)
}

fn store_as_load(own: &mut Fields) {
    if own.kind == Kind::St1.number() {
        own.kind = Kind::Ld1.number();
    }
}
