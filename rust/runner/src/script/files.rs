//! Files of bytes that a script names.

use crate::digits::shown;
use crate::wording::counted;
use std::fs::File;
use std::io::{self, Read};
use std::path::Path;

/// How many bytes an instruction word has; its lowest is first.
pub const WORD_BYTES: usize = 4;

/// The bytes of a file in a folder, of which there may be at most `limit`, and not none.
pub fn contents(folder: &Path, name: &str, limit: usize) -> Result<Vec<u8>, String> {
    let bytes = read(&folder.join(name), limit)
        .map_err(|error| format!("'{}' cannot be read: {error}", shown(name)))?;
    let name = shown(name);
    match bytes.len() {
        0 => Err(format!("'{name}' is empty")),
        length if length > limit => Err(format!(
            "'{name}' has more than the {} that there is room for",
            counted(limit, "byte")
        )),
        _ => Ok(bytes),
    }
}

/// One byte above the limit shows that there is more, without reading all of it.
fn read(path: &Path, limit: usize) -> io::Result<Vec<u8>> {
    let mut bytes = Vec::new();
    let file = File::open(path)?;
    file.take(limit as u64 + 1).read_to_end(&mut bytes)?;
    Ok(bytes)
}

/// The words that a file's bytes are.
pub fn words(bytes: &[u8], name: &str) -> Result<Vec<u32>, String> {
    let left = bytes.len() % WORD_BYTES;
    if left != 0 {
        let (name, length) = (shown(name), counted(bytes.len(), "byte"));
        return Err(format!(
            "'{name}' has {length}: a word has four, and {left} are left after the last"
        ));
    }
    let word = |bytes: &[u8]| {
        let value = |value, byte: &u8| value << 8 | u32::from(*byte);
        bytes.iter().rev().fold(0, value)
    };
    Ok(bytes.chunks(WORD_BYTES).map(word).collect())
}

/// Words as such a file has them.
pub fn bytes_of(words: impl Iterator<Item = u32>) -> Vec<u8> {
    let words: Vec<[u8; WORD_BYTES]> = words.map(u32::to_le_bytes).collect();
    words.into_flattened()
}
