//! JSON values as text.

use crate::digits::digits_of;
use std::fmt::{self, Write};

pub enum Json {
    Null,
    Bool(bool),
    /// A number that every reader holds exactly: counts, lines, numbers of registers, below 2^53. What may be
    /// larger is text.
    Number(usize),
    Text(String),
    List(Vec<Json>),
    Object(Vec<(&'static str, Json)>),
}

impl Json {
    pub fn text(text: impl Into<String>) -> Json {
        Json::Text(text.into())
    }

    /// An address, or anything of 64 bits: 16 hexadecimal digits.
    pub fn address(address: u64) -> Json {
        Json::Text(format!("{address:016X}"))
    }

    /// Bytes of two hexadecimal digits each.
    pub fn bytes(bytes: &[u8]) -> Json {
        Json::Text(digits_of(bytes))
    }

    /// Null where there is nothing.
    pub fn of<T>(value: Option<T>, json: impl FnOnce(T) -> Json) -> Json {
        value.map_or(Json::Null, json)
    }
}

/// On one line.
impl fmt::Display for Json {
    fn fmt(&self, f: &mut fmt::Formatter<'_>) -> fmt::Result {
        match self {
            Json::Null => f.write_str("null"),
            Json::Bool(value) => write!(f, "{value}"),
            Json::Number(value) => write!(f, "{value}"),
            Json::Text(text) => quoted(f, text),
            Json::List(values) => {
                f.write_char('[')?;
                for (i, value) in values.iter().enumerate() {
                    write!(f, "{}{value}", separator(i))?;
                }
                f.write_char(']')
            }
            Json::Object(members) => {
                f.write_char('{')?;
                for (i, (name, value)) in members.iter().enumerate() {
                    write!(f, "{}\"{name}\": {value}", separator(i))?;
                }
                f.write_char('}')
            }
        }
    }
}

fn separator(number: usize) -> &'static str {
    match number {
        0 => "",
        _ => ", ",
    }
}

fn quoted(f: &mut fmt::Formatter<'_>, text: &str) -> fmt::Result {
    f.write_char('"')?;
    for c in text.chars() {
        match c {
            '"' | '\\' => write!(f, "\\{c}")?,
            // All control characters, though JSON asks only for those below 20: a terminal may show the document.
            c if c.is_control() => write!(f, "\\u{:04X}", u32::from(c))?,
            c => f.write_char(c)?,
        }
    }
    f.write_char('"')
}

#[cfg(test)]
mod tests {
    use super::*;

    #[test]
    fn values_are_written_as_json_has_them() {
        let value = Json::Object(vec![
            ("none", Json::Null),
            ("empty", Json::List(Vec::new())),
            ("list", Json::List(vec![Json::Bool(true), Json::Number(7)])),
            ("text", Json::text("a\"b\\c\n\u{7f}\u{e9}")),
            ("address", Json::address(0xFC)),
            ("bytes", Json::bytes(&[0, 0xAB])),
        ]);
        let expected = r#"{"none": null, "empty": [], "list": [true, 7], "text": "a\"b\\c\u000A\u007Fé", "address": "00000000000000FC", "bytes": "00AB"}"#;
        assert_eq!(value.to_string(), expected);
    }
}
