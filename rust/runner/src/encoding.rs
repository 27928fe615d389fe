//! Encoding alone.

use crate::paint::{Paint, Style};
use crate::report::{decoded, item};
use crate::wording;
use sme_move::{decode_fields, encode_fields, Fields, Settings};
use std::io::{self, Write};

/// Prints the word that has eleven numbers, and what it is.
pub fn print(out: &mut impl Write, numbers: [u8; 11], paint: Paint) -> io::Result<()> {
    let fields = Fields::from(numbers);
    match (encode_fields(fields), fields.operation()) {
        (Ok(word), Some(operation)) => {
            let heading = paint.text(Style::Heading, &format!("{word:08X}"));
            writeln!(out, "{heading}")?;
            decoded(out, operation)?;
            item(out, "decodes", &[back(word, fields)])
        }
        _ => {
            let heading = numbers.map(|number| number.to_string()).join(" ");
            writeln!(out, "{}", paint.text(Style::Heading, &heading))?;
            let reason = wording::answered(8, "no word has these numbers");
            item(out, "refused", &[paint.text(Style::Refused, &reason)])
        }
    }
}

/// From which level on the word decodes, and whether that gives its numbers back.
fn back(word: u32, fields: Fields) -> String {
    let mut levels = 0..=Settings::MAX_LEVEL;
    let level = levels.find(|&level| decode_fields(word, level).is_ok());
    let Some(level) = level else {
        return "at no level".to_string();
    };
    let same = match decode_fields(word, level) == Ok(fields) {
        true => "the same numbers",
        false => "other numbers",
    };
    format!("to {same}, from level {level} on")
}

#[cfg(test)]
mod tests {
    use super::*;

    fn printed(numbers: [u8; 11]) -> String {
        let mut out = Vec::new();
        print(&mut out, numbers, Paint { colours: false }).expect("memory can be written");
        String::from_utf8(out).expect("plain text")
    }

    #[test]
    fn numbers_have_a_word_of_each_kind() {
        for (word, level) in [
            (0xC080ACA9, 1),
            (0xC0C2E3BF, 3),
            (0xC0064CFC, 2),
            (0xC0060A6A, 3),
            (0xE0BE386B, 1),
            (0xC082AD25, 1),
            (0xE1C8FA6D, 1),
        ] {
            let fields = decode_fields(word, 3).expect("the word decodes");
            let text = printed(fields.into());
            assert!(text.starts_with(&format!("{word:08X}\n  meaning  ")));
            let end = format!("\n  decodes  to the same numbers, from level {level} on\n");
            assert!(text.ends_with(&end), "{text}");
        }
    }

    #[test]
    fn a_refusal_is_said() {
        for numbers in [
            [0; 11],
            [255; 11],
            [1, 1, 0, 1, 0, 12, 0, 0, 0, 0, 1],
            [3, 0, 0, 0, 0, 8, 0, 2, 0, 0, 4],
        ] {
            let heading = numbers.map(|number| number.to_string()).join(" ");
            let expected = format!("{heading}\n  refused  8: no word has these numbers\n");
            assert_eq!(printed(numbers), expected);
        }
    }
}
