//! Numbers as they are written: decimal for counts and for the numbers of registers, hexadecimal
//! for contents and words.

/// How many characters of the input a message repeats.
const SHOWN: usize = 40;

/// Input as a message may repeat it: nothing in it reaches a terminal as a control character, and
/// long text is cut.
pub fn shown(text: &str) -> String {
    let mut shown: String = text
        .chars()
        .take(SHOWN)
        .flat_map(char::escape_debug)
        .collect();
    if text.chars().nth(SHOWN).is_some() {
        shown.push_str("...");
    }
    shown
}

/// A decimal number. Each has one way to be written, so no sign and no leading zero.
pub fn decimal(text: &str) -> Option<u64> {
    let canonical = text == "0" || !text.starts_with('0');
    let digits = text.bytes().all(|byte| byte.is_ascii_digit());
    (canonical && digits).then(|| text.parse().ok())?
}

/// A hexadecimal number of 1 to 16 digits.
pub fn hexadecimal(text: &str) -> Result<u64, String> {
    only_hexadecimal(text)?;
    match text.len() {
        1..=16 => Ok(value(text)),
        length => Err(format!(
            "'{}' has {length} hexadecimal digits; 1 to 16 are allowed",
            shown(text)
        )),
    }
}

/// An instruction word.
pub fn word(text: &str) -> Result<u32, String> {
    let rule = "a word has exactly eight hexadecimal digits";
    only_hexadecimal(text).map_err(|fault| format!("{rule}; {fault}"))?;
    match text.len() {
        8 => Ok(value(text) as u32),
        length => Err(format!("{rule}; '{}' has {length}", shown(text))),
    }
}

/// Bytes of two digits each; there may be blanks between bytes, so not within one.
pub fn bytes(tokens: &[&str]) -> Result<Vec<u8>, String> {
    let mut bytes = Vec::new();
    for token in tokens {
        only_hexadecimal(token)?;
        if token.len() % 2 != 0 {
            let length = token.len();
            let token = shown(token);
            return Err(format!(
                "'{token}' has {length} digits; a byte has two, and blanks are only between bytes"
            ));
        }
        bytes.extend(
            (0..token.len())
                .step_by(2)
                .map(|i| value(&token[i..i + 2]) as u8),
        );
    }
    Ok(bytes)
}

/// Bytes as they are written, two digits each, without blanks.
pub fn digits_of(bytes: &[u8]) -> String {
    bytes.iter().map(|byte| format!("{byte:02X}")).collect()
}

fn only_hexadecimal(text: &str) -> Result<(), String> {
    match text.chars().find(|c| !c.is_ascii_hexdigit()) {
        None => Ok(()),
        Some(other) => Err(format!(
            "'{}' has '{}' in it, which is no hexadecimal digit",
            shown(text),
            other.escape_debug()
        )),
    }
}

/// The value of at most 16 hexadecimal digits.
fn value(digits: &str) -> u64 {
    digits
        .chars()
        .filter_map(|digit| digit.to_digit(16))
        .fold(0, |sum, digit| sum << 4 | u64::from(digit))
}

#[cfg(test)]
mod tests {
    use super::*;

    #[test]
    fn a_decimal_number_has_one_form() {
        assert_eq!(decimal("0"), Some(0));
        assert_eq!(decimal("255"), Some(255));
        for text in [
            "",
            "+1",
            "-1",
            "01",
            "00",
            "1F",
            "18446744073709551616",
            "\u{661}",
        ] {
            assert_eq!(decimal(text), None, "{text}");
        }
    }

    #[test]
    fn hexadecimal_numbers_have_at_most_16_digits() {
        assert_eq!(hexadecimal("fF"), Ok(255));
        assert_eq!(hexadecimal("FFFFFFFFFFFFFFFF"), Ok(u64::MAX));
        assert!(hexadecimal("00000000000000000").unwrap_err().contains("17"));
        assert!(hexadecimal("0x1").unwrap_err().contains("'x'"));
    }

    #[test]
    fn words_keep_their_leading_zeros() {
        assert_eq!(word("0000000f"), Ok(15));
        assert_eq!(
            word("C08000").unwrap_err(),
            "a word has exactly eight hexadecimal digits; 'C08000' has 6"
        );
        assert_eq!(
            word("C080000G").unwrap_err(),
            "a word has exactly eight hexadecimal digits; \
             'C080000G' has 'G' in it, which is no hexadecimal digit"
        );
    }

    #[test]
    fn blanks_are_between_bytes() {
        assert_eq!(bytes(&["0011", "22"]), Ok(vec![0, 0x11, 0x22]));
        assert!(bytes(&["001", "122"])
            .unwrap_err()
            .contains("'001' has 3 digits"));
    }

    #[test]
    fn messages_repeat_no_control_character() {
        assert_eq!(shown("a\u{1b}[0m"), "a\\u{1b}[0m");
        assert_eq!(shown(&"7".repeat(50)), "7".repeat(40) + "...");
    }
}
