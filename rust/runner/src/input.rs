//! Where a script comes from, and its text.

use crate::script::Fault;
use std::ffi::OsString;
use std::fs::File;
use std::io::{self, Read};
use std::path::Path;

/// No kernel is this long; a limit keeps a wrong file name from filling the host's memory.
const MAX_BYTES: u64 = 16 << 20;

/// The byte order mark, which some editors put before UTF-8 text. It says nothing there and is skipped.
const MARK: char = '\u{FEFF}';

/// What the mark is in text of two bytes a character, of either order.
const WIDE_MARKS: [[u8; 2]; 2] = [[0xFE, 0xFF], [0xFF, 0xFE]];

pub enum Source {
    /// The example that the program carries.
    Example,
    StandardInput,
    File(OsString),
}

impl Source {
    /// The name in messages.
    pub fn name(&self) -> String {
        match self {
            Source::Example => "built-in example".to_string(),
            Source::StandardInput => "standard input".to_string(),
            Source::File(name) => name.to_string_lossy().into_owned(),
        }
    }

    /// Where files are that the script names: in its own folder.
    pub fn folder(&self) -> &Path {
        match self {
            Source::Example | Source::StandardInput => Path::new(""),
            Source::File(name) => Path::new(name).parent().unwrap_or(Path::new("")),
        }
    }

    pub fn text(&self) -> Result<String, Fault> {
        let bytes = match self {
            Source::Example => return Ok(include_str!("../example.txt").to_string()),
            Source::StandardInput => bounded(io::stdin().lock()),
            Source::File(name) => File::open(name).and_then(bounded),
        };
        text_of(bytes.map_err(|error| Fault::of_file(format!("cannot be read: {error}")))?)
    }
}

/// At most one byte above the limit, which then shows that there was more.
fn bounded(reader: impl Read) -> io::Result<Vec<u8>> {
    let mut bytes = Vec::new();
    reader.take(MAX_BYTES + 1).read_to_end(&mut bytes)?;
    Ok(bytes)
}

fn text_of(bytes: Vec<u8>) -> Result<String, Fault> {
    if bytes.is_empty() {
        return Err(Fault::of_file("the file is empty"));
    }
    if bytes.len() as u64 > MAX_BYTES {
        let limit = MAX_BYTES >> 20;
        return Err(Fault::of_file(format!(
            "the file has more than {limit} MiB"
        )));
    }
    if let Some(mark) = WIDE_MARKS.into_iter().find(|mark| bytes.starts_with(mark)) {
        let [first, second] = mark;
        return Err(Fault::of_line(
            1,
            format!("the file begins with {first:02X} {second:02X}, the mark of UTF-16; a script is UTF-8 text"),
        ));
    }
    let text = String::from_utf8(bytes).map_err(|error| {
        let good = &error.as_bytes()[..error.utf8_error().valid_up_to()];
        let line = 1 + good.iter().filter(|&&byte| byte == b'\n').count();
        Fault::of_line(line, "the line is not UTF-8 text")
    })?;
    match text.strip_prefix(MARK) {
        Some(text) => Ok(text.to_string()),
        None => Ok(text),
    }
}

#[cfg(test)]
mod tests {
    use super::*;

    fn message(bytes: &[u8]) -> String {
        text_of(bytes.to_vec()).unwrap_err().in_file("k.txt")
    }

    #[test]
    fn a_byte_order_mark_is_skipped_or_named() {
        let text = |bytes: &[u8]| text_of(bytes.to_vec()).ok();
        assert_eq!(text(b"\xEF\xBB\xBFword\n").as_deref(), Some("word\n"));
        assert_eq!(text(b"\xEF\xBB\xBF").as_deref(), Some(""));
        let twice = text(b"\xEF\xBB\xBF\xEF\xBB\xBFword\n");
        assert_eq!(twice.as_deref(), Some("\u{FEFF}word\n"));
        assert_eq!(
            message(b"\xFF\xFEw\0o\0"),
            "k.txt:1: the file begins with FF FE, the mark of UTF-16; a script is UTF-8 text"
        );
        assert_eq!(
            message(b"\xFE\xFF\0w\0o"),
            "k.txt:1: the file begins with FE FF, the mark of UTF-16; a script is UTF-8 text"
        );
    }

    #[test]
    fn text_is_utf8_and_neither_empty_nor_huge() {
        assert_eq!(text_of(b"word\n".to_vec()).ok().as_deref(), Some("word\n"));
        assert_eq!(message(b""), "k.txt: the file is empty");
        assert_eq!(
            message(b"a\nb\n\xFFc"),
            "k.txt:3: the line is not UTF-8 text"
        );
        let huge = vec![b'#'; MAX_BYTES as usize + 1];
        assert_eq!(message(&huge), "k.txt: the file has more than 16 MiB");
    }
}
