//! The lines that go in and out: fixed width, upper-case hexadecimal.

use crate::decode::decode;
use crate::encode::encode;
use crate::flat::{Flat, LENGTH};
use std::fmt::Write;

/// A word and a level, as `WWWWWWWW LL`.
pub fn word_line(word: u32, level: u8) -> String {
    format!("{word:08X} {level:02X}")
}

/// Eleven bytes, as 22 digits.
pub fn fields_line(bytes: &[u8; LENGTH]) -> String {
    let mut line = String::with_capacity(2 * LENGTH);
    for byte in bytes {
        write!(line, "{byte:02X}").expect("writing to a string does not fail");
    }
    line
}

/// Answers one line of `second decode`. The word that encoding gives back
/// is printed too, so that a comparison sees both ways at once.
pub fn decode_line(line: &[u8]) -> Result<String, String> {
    let (word, level) = read_word_line(line)?;
    let start = word_line(word, level);
    Ok(match decode(word, level) {
        Ok(operation) => format!("{start} 0 {}", operation_text(&operation)),
        Err(refusal) => format!("{start} {}", refusal.number()),
    })
}

/// Answers one line of `second encode`; word 0 goes with a refusal
/// (document 01, section 6).
pub fn encode_line(line: &[u8]) -> Result<String, String> {
    let bytes = read_fields_line(line)?;
    let start = fields_line(&bytes);
    Ok(match encode(&Flat::from_bytes(bytes)) {
        Ok(word) => format!("{start} 0 {word:08X}"),
        Err(refusal) => format!("{start} {} {:08X}", refusal.number(), 0),
    })
}

/// Eleven decimal numbers and the word they encode to.
fn operation_text(operation: &Flat) -> String {
    let mut text = String::new();
    for number in operation.to_bytes() {
        write!(text, "{number} ").expect("writing to a string does not fail");
    }
    // A decoded operation always encodes; were it refused, word 0 would
    // show it in the comparison.
    let word = encode(operation).unwrap_or(0);
    write!(text, "{word:08X}").expect("writing to a string does not fail");
    text
}

/// Reads `WWWWWWWW LL`.
fn read_word_line(line: &[u8]) -> Result<(u32, u8), String> {
    const SHAPE: &str = "expected eight digits, one space, two digits";
    if line.len() != 11 || line[8] != b' ' {
        return Err(SHAPE.to_string());
    }
    let word = read_hexadecimal(&line[..8])?;
    let level = read_hexadecimal(&line[9..])?;
    Ok((word, level as u8))
}

/// Reads 22 digits.
fn read_fields_line(line: &[u8]) -> Result<[u8; LENGTH], String> {
    if line.len() != 2 * LENGTH {
        return Err(format!("expected {} digits", 2 * LENGTH));
    }
    let mut bytes = [0; LENGTH];
    for (byte, digits) in bytes.iter_mut().zip(line.chunks(2)) {
        *byte = read_hexadecimal(digits)? as u8;
    }
    Ok(bytes)
}

/// Reads up to eight digits. Lower case is refused, so that one input has
/// one spelling.
fn read_hexadecimal(digits: &[u8]) -> Result<u32, String> {
    let mut value = 0;
    for &digit in digits {
        let worth = match digit {
            b'0'..=b'9' => digit - b'0',
            b'A'..=b'F' => digit - b'A' + 10,
            _ => return Err("expected upper-case hexadecimal digits".to_string()),
        };
        value = value << 4 | u32::from(worth);
    }
    Ok(value)
}
