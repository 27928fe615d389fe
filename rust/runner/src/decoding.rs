//! Decoding alone.

use crate::paint::{Paint, Style};
use crate::report::{decoded, item};
use crate::wording;
use sme_move::{decode, encode, Refusal};
use std::io::{self, Write};

/// Prints what a word is at a level, and the word that its numbers encode to.
pub fn print(out: &mut impl Write, word: u32, level: u64, paint: Paint) -> io::Result<()> {
    writeln!(
        out,
        "{}",
        paint.text(Style::Heading, &format!("{word:08X}"))
    )?;
    match decode(word, level) {
        Ok(operation) => {
            decoded(out, operation)?;
            let back = match encode(operation) {
                Ok(back) if back == word => format!("{back:08X}, the same word"),
                Ok(back) => format!("{back:08X}, another word"),
                Err(refusal) => wording::answer(Err(refusal)),
            };
            item(out, "encodes", &[back])
        }
        Err(refusal) => {
            let reason = match refusal {
                Refusal::BadSettings => format!("1: there is no level {level}"),
                _ => format!("{}: {}", refusal.number(), wording::no_instruction(level)),
            };
            item(out, "refused", &[paint.text(Style::Refused, &reason)])
        }
    }
}

#[cfg(test)]
mod tests {
    use super::*;

    fn printed(word: u32, level: u64) -> String {
        let mut out = Vec::new();
        print(&mut out, word, level, Paint { colours: false }).expect("memory can be written");
        String::from_utf8(out).expect("plain text")
    }

    #[test]
    fn a_decoded_word_encodes_back() {
        let text = printed(0xC080ACA9, 1);
        assert!(text.starts_with("C080ACA9\n  meaning  move to tile: 4-byte elements, tile 2"));
        assert!(text.contains("index register 13, predicate 3, first vector register 5"));
        assert!(text.ends_with("  encodes  C080ACA9, the same word\n"));
    }

    #[test]
    fn added_words_encode_back_from_their_level_on() {
        for (word, level, meaning) in [
            (
                0xC082AD25,
                1,
                "move from tile: 4-byte elements, tile 2, vertical",
            ),
            (0xC006086A, 2, "move from array: 2 vectors"),
            (0xC0064EFC, 3, "move and zero from array: 4 vectors"),
            (
                0xE1F55D4B,
                1,
                "store from tile: 16-byte elements, tile 11, horizontal",
            ),
            (
                0xE08CC7AE,
                1,
                "load to tile: 4-byte elements, tile 3, vertical",
            ),
        ] {
            let text = printed(word, level);
            assert!(text.starts_with(&format!("{word:08X}\n  meaning  {meaning}; ")));
            assert!(text.ends_with(&format!("  encodes  {word:08X}, the same word\n")));
            let refused = format!(
                "{word:08X}\n  refused  3: no instruction of level {}\n",
                level - 1
            );
            assert_eq!(printed(word, level - 1), refused);
        }
    }

    #[test]
    fn refusals_are_said() {
        assert_eq!(
            printed(0xC0020200, 2),
            "C0020200\n  refused  3: no instruction of level 2\n"
        );
        assert_eq!(
            printed(0xC0020200, 4),
            "C0020200\n  refused  1: there is no level 4\n"
        );
    }
}
