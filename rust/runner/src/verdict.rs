//! Whether an expectation is met, and if not, where the first difference is.

use crate::digits::digits_of;
use crate::machine::Machine;
use crate::script::{Answer, Expectation, Subject};
use crate::wording::{self, counted};
use sme_move::Refusal;

/// How many bytes are shown whole; of more only the row with the first difference.
const SHOWN_WHOLE: usize = 32;
const ROW: usize = 16;

/// How many bytes stand together.
const GROUP: usize = 4;

/// What was found in the place of what was expected.
#[derive(Debug, PartialEq)]
pub enum Difference {
    Answer(Result<(), Refusal>),
    Bytes {
        /// The number of the first byte that differs.
        first: usize,
        /// How many bytes differ.
        count: usize,
        found: Vec<u8>,
    },
}

/// The difference, if there is one, between what is expected and what is there after a word with this answer.
pub fn difference(
    expectation: &Expectation,
    machine: &Machine,
    answer: Result<(), Refusal>,
) -> Option<Difference> {
    match expectation {
        Expectation::Answer(expected) if expected.is(answer) => None,
        Expectation::Answer(_) => Some(Difference::Answer(answer)),
        Expectation::Bytes { subject, bytes } => {
            let found = machine.bytes(*subject, bytes.len());
            let pairs = bytes.iter().zip(found.iter());
            let differs = |&(_, (expected, found)): &(usize, (&u8, &u8))| expected != found;
            let mut differing = pairs.enumerate().filter(differs).map(|(byte, _)| byte);
            let first = differing.next()?;
            Some(Difference::Bytes {
                first,
                count: 1 + differing.count(),
                found: found.into_owned(),
            })
        }
    }
}

/// What an expectation is about.
pub fn about(expectation: &Expectation) -> String {
    match expectation {
        Expectation::Answer(_) => "the answer".to_string(),
        Expectation::Bytes { subject, .. } => subject.name(),
    }
}

/// Lines that show a difference: a name and a text each.
pub fn lines(expectation: &Expectation, difference: &Difference) -> Vec<(&'static str, String)> {
    match (expectation, difference) {
        (Expectation::Answer(expected), Difference::Answer(found)) => vec![
            ("expected", expected_answer(*expected)),
            ("found", wording::answer(*found)),
        ],
        (
            Expectation::Bytes { subject, bytes },
            Difference::Bytes {
                first,
                count,
                found,
            },
        ) => vec![
            ("expected", row(bytes, *first)),
            ("found", row(found, *first)),
            (
                "first",
                format!(
                    "difference in {}: {:02X} expected, {:02X} found; {count} of {} differ",
                    place(*subject, *first),
                    bytes[*first],
                    found[*first],
                    counted(bytes.len(), "byte")
                ),
            ),
        ],
        // A difference is always of its expectation's sort.
        _ => Vec::new(),
    }
}

fn expected_answer(answer: Answer) -> String {
    match answer {
        Answer::Exactly(answer) => wording::answer(answer),
        Answer::OutsideMemory { address } => {
            let address = address.map_or("an address".to_string(), |address| {
                format!("address {address:016X}")
            });
            wording::answered(answer.number(), &format!("{address} is not in memory"))
        }
    }
}

/// Where a byte is, as one looks for it.
fn place(subject: Subject, byte: usize) -> String {
    match subject {
        Subject::Memory { address } => {
            let address = address.wrapping_add(byte as u64);
            format!("byte {byte}, at address {address:016X}")
        }
        Subject::Vector(_) | Subject::Array(_) => format!("byte {byte}"),
        Subject::Slice { tile, .. } => {
            let (element, within) = (byte / tile.element_bytes, byte % tile.element_bytes);
            format!("byte {within} of element {element}")
        }
    }
}

/// The bytes in groups: all of few, or the row that has this one in it.
fn row(bytes: &[u8], byte: usize) -> String {
    let range = match bytes.len() {
        length if length <= SHOWN_WHOLE => 0..length,
        length => {
            let start = byte / ROW * ROW;
            start..length.min(start + ROW)
        }
    };
    let groups = bytes[range.clone()].chunks(GROUP);
    let groups: Vec<String> = groups.map(digits_of).collect();
    let text = groups.join(" ");
    match range.len() == bytes.len() {
        true => text,
        false => format!("{text} (bytes {} to {})", range.start, range.end - 1),
    }
}
