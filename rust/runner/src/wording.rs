//! Words, fields and answers in plain English.

use crate::access;
use crate::digits::shown;
use crate::operation::{Access, Parts, Reach};
use sme_move::{Direction, Fields, Operation, Refusal};

/// The names of the eleven numbers, in their order.
const FIELD_NAMES: [&str; 11] = [
    "kind",
    "element bytes",
    "direction",
    "tile",
    "offset",
    "index register",
    "predicate",
    "first vector register",
    "base register",
    "offset register",
    "vector registers",
];

/// How many ranges of numbers are worth reading.
const MAX_RANGES: usize = 12;

/// What a decoded word is.
pub fn meaning(operation: Operation) -> String {
    let Parts {
        name,
        reach,
        governing_predicate,
        vector,
        access,
        ..
    } = Parts::of(operation);
    let mut details = Vec::new();
    if let Some(first) = vector {
        details.push(vectors(operation, reach, first));
    }
    details.extend(governing_predicate.map(|number| format!("predicate {number}")));
    details.extend(access.map(at));
    format!("{name}: {}; {}", reached(reach), details.join(", "))
}

fn at(access: Access) -> String {
    format!("at {}", access::sum(access))
}

fn reached(reach: Reach) -> String {
    match reach {
        Reach::Slice {
            size,
            direction,
            tile,
        } => {
            let (bytes, direction) = (size.bytes(), direction_name(direction));
            format!("{bytes}-byte elements, tile {tile}, {direction}")
        }
        Reach::Group(registers) => format!("{} vectors", registers.number()),
    }
}

/// The vector registers that an operation reads or writes.
fn vectors(operation: Operation, reach: Reach, first: u8) -> String {
    match (operation, reach) {
        (Operation::MovaToTile { .. }, _) => format!("from vector register {first}"),
        (_, Reach::Slice { .. }) => format!("to vector register {first}"),
        (_, Reach::Group(registers)) => {
            let last = first + registers.number() - 1;
            format!("to vector registers {first} to {last}")
        }
    }
}

pub fn direction_name(direction: Direction) -> &'static str {
    match direction {
        Direction::Horizontal => "horizontal",
        Direction::Vertical => "vertical",
    }
}

/// What a word is that does not decode.
pub fn no_instruction(level: u64) -> String {
    format!("no instruction of level {level}")
}

/// The eleven numbers with their names, on three lines.
pub fn fields(fields: Fields) -> Vec<String> {
    let numbers: [u8; 11] = fields.into();
    let named: Vec<String> = FIELD_NAMES
        .iter()
        .zip(numbers)
        .map(|(name, number)| format!("{name} {number}"))
        .collect();
    [&named[..5], &named[5..8], &named[8..]]
        .map(|some| some.join(", "))
        .to_vec()
}

/// An answer's number and what it means.
pub fn answer(answer: Result<(), Refusal>) -> String {
    match answer {
        Ok(()) => answered(0, "done"),
        // The runner's registers always have the right lengths, so this is all that is left of 2.
        Err(Refusal::BadLengths) => answered(2, "memory ends above address FFFFFFFFFFFFFFFF"),
        // No letters name the array here, whatever the binding says.
        Err(Refusal::ZaOff) => answered(5, "the array is off"),
        Err(refusal) => answered(refusal.number(), &refusal.to_string()),
    }
}

pub fn answered(number: u32, meaning: &str) -> String {
    format!("{number}: {meaning}")
}

/// Numbers in order as ranges: `0 to 3, 5 and 7`; of many ranges only the first.
pub fn ranges(numbers: &[usize]) -> String {
    let mut ranges: Vec<(usize, usize)> = Vec::new();
    for &number in numbers {
        match ranges.last_mut() {
            Some((_, last)) if *last + 1 == number => *last = number,
            _ => ranges.push((number, number)),
        }
    }
    let texts = ranges.iter().map(|&(first, last)| match last - first {
        0 => first.to_string(),
        1 => format!("{first}, {last}"),
        _ => format!("{first} to {last}"),
    });
    let mut texts: Vec<String> = texts.take(MAX_RANGES).collect();
    if ranges.len() > MAX_RANGES {
        texts.push("so on".to_string());
    }
    list(&texts)
}

/// So many texts with commas, the last one with `and`.
pub fn list(texts: &[String]) -> String {
    match texts {
        [] => "none".to_string(),
        [one] => one.clone(),
        [first @ .., last] => format!("{} and {last}", first.join(", ")),
    }
}

/// A count and its noun, which takes an s.
pub fn counted(count: usize, noun: &str) -> String {
    match count {
        1 => format!("1 {noun}"),
        _ => format!("{count} {noun}s"),
    }
}

/// A part of the command line as a message repeats it.
pub fn quoted(text: &std::ffi::OsStr) -> String {
    format!("'{}'", shown(&text.to_string_lossy()))
}

#[cfg(test)]
mod tests {
    use super::*;
    use sme_move::decode;

    fn meaning_of(word: u32) -> String {
        meaning(decode(word, 3).expect("the word decodes"))
    }

    #[test]
    fn each_kind_of_move_has_its_meaning() {
        for (word, expected) in [
            (
                0xC080ACA9,
                "move to tile: 4-byte elements, tile 2, vertical; from vector register 5, predicate 3",
            ),
            (
                0xC0C2E3BF,
                "move and zero from tile: 8-byte elements, tile 6, vertical; to vector register 31",
            ),
            (
                0xC082AD25,
                "move from tile: 4-byte elements, tile 2, vertical; to vector register 5, predicate 3",
            ),
            (
                0xC0025569,
                "move from tile: 1-byte elements, tile 0, horizontal; to vector register 9, predicate 5",
            ),
            (0xC006086A, "move from array: 2 vectors; to vector registers 10 to 11"),
            (0xC0064CFC, "move from array: 4 vectors; to vector registers 28 to 31"),
            (0xC0060A6A, "move and zero from array: 2 vectors; to vector registers 10 to 11"),
            (0xC0064EFC, "move and zero from array: 4 vectors; to vector registers 28 to 31"),
        ] {
            assert_eq!(meaning_of(word), expected);
        }
    }

    #[test]
    fn loads_and_stores_have_their_meaning() {
        for (word, expected) in [
            (
                0xE0220020,
                "store from tile: 1-byte elements, tile 0, horizontal; predicate 0, \
                 at register 1 + register 2",
            ),
            (
                0xE03F03E0,
                "store from tile: 1-byte elements, tile 0, horizontal; predicate 0, \
                 at the stack pointer + zero",
            ),
            (
                0xE0BE386B,
                "store from tile: 4-byte elements, tile 2, horizontal; predicate 6, \
                 at register 3 + 4 times register 30",
            ),
            (
                0xE1C8FA6D,
                "load to tile: 16-byte elements, tile 13, vertical; predicate 6, \
                 at register 19 + 16 times register 8",
            ),
            (
                0xE006AF2E,
                "load to tile: 1-byte elements, tile 0, vertical; predicate 3, \
                 at register 25 + register 6",
            ),
        ] {
            assert_eq!(meaning_of(word), expected);
        }
    }

    #[test]
    fn answers_have_their_numbers() {
        assert_eq!(answer(Ok(())), "0: done");
        assert_eq!(answer(Err(Refusal::ZaOff)), "5: the array is off");
        let outside = Refusal::OutsideMemory {
            address: 0xFC,
            element: 3,
        };
        assert_eq!(
            answer(Err(outside)),
            "7: address 00000000000000FC of element 3 is not in memory"
        );
    }

    #[test]
    fn numbers_in_order_become_ranges() {
        assert_eq!(ranges(&[]), "none");
        assert_eq!(ranges(&[4]), "4");
        assert_eq!(ranges(&[0, 1, 3]), "0, 1 and 3");
        assert_eq!(ranges(&[0, 1, 2, 5, 7, 8, 9]), "0 to 2, 5 and 7 to 9");
        let even: Vec<usize> = (0..40).map(|i| 2 * i).collect();
        assert!(ranges(&even).ends_with("20, 22 and so on"));
    }
}
