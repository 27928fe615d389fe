//! The worked examples of document 01, section 7, and those for the added
//! rows, as far as they speak of words, and decoding and encoding against
//! each other and the table.

use crate::count::count_between;
use crate::decode::decode;
use crate::encode::encode;
use crate::flat::{self, Flat};
use crate::inputs::random::Random;
use crate::inputs::rows::{Row, ROWS};
use crate::inputs::{examples, fields};
use crate::refusal::Refusal;

/// How many words decode at each level, as the amended table states it.
const STATED: [(u8, u64); 4] = [(0, 0), (1, 10_813_440), (2, 10_814_208), (3, 10_835_456)];

/// Examples 1, 2, 4 to 10 and the added ones: the numbers at the least level
/// and above it, 3 below it, 1 above the highest level.
#[test]
fn examples_decode_from_their_level_on() {
    for (word, least, numbers) in examples::DECODING {
        for level in 0..=3 {
            let wanted = if level >= least {
                Ok(Flat::from_bytes(numbers))
            } else {
                Err(Refusal::Undecodable)
            };
            assert_eq!(decode(word, level), wanted, "{word:08X} at {level}");
        }
        for level in [4, 5, 255] {
            assert_eq!(decode(word, level), Err(Refusal::Level));
        }
    }
}

/// Examples 3 and 8 and the added ones: words that no level decodes. A
/// level above the highest is still told first.
#[test]
fn examples_that_do_not_decode() {
    for word in examples::UNDECODABLE {
        for level in 0..=3 {
            assert_eq!(decode(word, level), Err(Refusal::Undecodable));
        }
        assert_eq!(decode(word, 4), Err(Refusal::Level));
    }
}

/// The examples back to their words.
#[test]
fn examples_encode() {
    for (word, _, numbers) in examples::DECODING {
        assert_eq!(encode(&Flat::from_bytes(numbers)), Ok(word));
    }
}

/// Example 11 and the like of it for the added rows.
#[test]
fn examples_that_do_not_encode() {
    for numbers in examples::UNENCODABLE {
        assert_eq!(encode(&Flat::from_bytes(numbers)), Err(Refusal::Field));
    }
}

/// The largest in-range neighbours of example 11 are encoded.
#[test]
fn neighbours_of_example_eleven_encode() {
    let byte_move = [flat::MOVA_TO_TILE, 1, 0, 0, 15, 12, 0, 0, 0, 0, 1];
    assert_eq!(encode(&Flat::from_bytes(byte_move)), Ok(0xC000_000F));
    let byte_move = [flat::MOVA_FROM_TILE, 1, 0, 0, 15, 12, 7, 0, 0, 0, 1];
    assert_eq!(encode(&Flat::from_bytes(byte_move)), Ok(0xC002_1DE0));
    let four = [flat::MOVA_ARRAY, 0, 0, 0, 0, 8, 0, 4, 0, 0, 4];
    assert_eq!(encode(&Flat::from_bytes(four)), Ok(0xC006_0C04));
    let four = [flat::MOVAZ_ARRAY, 0, 0, 0, 0, 8, 0, 4, 0, 0, 4];
    assert_eq!(encode(&Flat::from_bytes(four)), Ok(0xC006_0E04));
    let two = [flat::MOVA_ARRAY, 0, 0, 0, 0, 8, 0, 2, 0, 0, 2];
    assert_eq!(encode(&Flat::from_bytes(two)), Ok(0xC006_0802));
    let byte_load = [flat::LOAD, 1, 0, 0, 15, 12, 0, 0, 0, 0, 0];
    assert_eq!(encode(&Flat::from_bytes(byte_load)), Ok(0xE000_000F));
    let wide_store = [flat::STORE, 16, 0, 15, 0, 12, 0, 0, 0, 0, 0];
    assert_eq!(encode(&Flat::from_bytes(wide_store)), Ok(0xE1E0_000F));
}

/// Section 6 and requests 5 and 9: the numbers of the refusals; only 7 carries
/// an address and an element.
#[test]
fn refusal_numbers() {
    let fault = Refusal::Fault {
        address: 9,
        element: 5,
    };
    let numbered = [
        (Refusal::Level, 1),
        (Refusal::VectorLength, 1),
        (Refusal::Length, 2),
        (Refusal::Undecodable, 3),
        (Refusal::StreamingOff, 4),
        (Refusal::ZaOff, 5),
        (Refusal::StackPointer, 6),
        (fault, 7),
        (Refusal::Field, 8),
        (Refusal::ListingLength, 9),
        (Refusal::NoFreeTile, 13),
        (Refusal::Held, 16),
    ];
    for (refusal, number) in numbered {
        assert_eq!(refusal.number(), number);
        let carried = (refusal.address(), refusal.element());
        assert_eq!(carried, if number == 7 { (9, 5) } else { (0, 0) });
    }
}

/// Every word of every row against the table, both ways and at all levels.
#[test]
fn every_member_agrees_with_the_table() {
    for row in &ROWS {
        every_member(row, &mut Vec::new());
    }
}

/// Fixes one field after another at each of its values.
fn every_member(row: &Row, bits: &mut Vec<u32>) {
    let Some(field) = row.fields.get(bits.len()) else {
        check_member(row, bits);
        return;
    };
    for value in 0..=field.top() {
        bits.push(value);
        every_member(row, bits);
        bits.pop();
    }
}

fn check_member(row: &Row, bits: &[u32]) {
    let word = row.word(bits);
    let operation = Flat::from_bytes(row.numbers(bits));
    assert_eq!(decode(word, row.level), Ok(operation), "{word:08X}");
    assert_eq!(decode(word, 3), Ok(operation), "{word:08X}");
    let below = decode(word, row.level - 1);
    assert_eq!(below, Err(Refusal::Undecodable), "{word:08X}");
    assert_eq!(encode(&operation), Ok(word), "{word:08X}");
}

/// The table says which words decode: those that agree with the base of a
/// row in all its fixed bits, from the row's level on.
fn in_table(word: u32, level: u8) -> bool {
    let fits = |row: &Row| level >= row.level && (word ^ row.base) & row.fixed() == 0;
    ROWS.iter().any(fits)
}

/// Checks one word at one level: it decodes just as the table says, and a
/// decoded word encodes back.
fn check_word(word: u32, level: u8) {
    let answer = decode(word, level);
    assert_eq!(answer.is_ok(), in_table(word, level), "{word:08X}");
    if let Ok(operation) = answer {
        assert_eq!(encode(&operation), Ok(word), "{word:08X}");
    }
}

/// Uniformly random words, and random words below the three leading bytes
/// that the rows have, where many more decode.
#[test]
fn random_words_round_trip() {
    let mut random = Random::new(7);
    for _ in 0..2_000_000 {
        let word = random.word();
        let level = random.below(4) as u8;
        check_word(word, level);
        check_word(word & 0x00FF_FFFF | 0xC000_0000, level);
        check_word(word & 0x01FF_FFFF | 0xE000_0000, level);
        check_word(word & 0x0007_FFFF | 0xC000_0000, level);
    }
}

/// The rows add up to the stated numbers, and no two of them share a word:
/// there is a bit, fixed in both, in which they differ.
#[test]
fn rows_have_the_stated_number_of_words() {
    let values = |row: &Row| row.fields.iter().map(|field| u64::from(field.top()) + 1);
    for (level, stated) in STATED {
        let rows = ROWS.iter().filter(|row| row.level <= level);
        let words: u64 = rows.map(|row| values(row).product::<u64>()).sum();
        assert_eq!(words, stated, "level {level}");
    }
    for (at, row) in ROWS.iter().enumerate() {
        for other in &ROWS[at + 1..] {
            let fixed_in_both = row.fixed() & other.fixed();
            assert_ne!((row.base ^ other.base) & fixed_in_both, 0);
        }
    }
}

/// Decoding finds the stated numbers below the three leading bytes that the
/// rows have. The command `count` tries the other words too.
#[test]
fn the_stated_number_of_words_decodes() {
    for (level, stated) in STATED {
        let below = |byte: u64| count_between(byte << 24, (byte + 1) << 24, level);
        let found = below(0xC0) + below(0xE0) + below(0xE1);
        assert_eq!(found, stated, "level {level}");
    }
}

/// Whatever is encoded decodes to the same eleven numbers, so no two flat
/// forms share a word.
#[test]
fn encoded_numbers_decode_back() {
    for bytes in fields::list() {
        let operation = Flat::from_bytes(bytes);
        match encode(&operation) {
            Ok(word) => assert_eq!(decode(word, 3), Ok(operation)),
            Err(refusal) => assert_eq!(refusal, Refusal::Field),
        }
    }
}

/// The bytes of the flat form stand in order.
#[test]
fn flat_form_keeps_its_order() {
    let bytes = [1, 2, 3, 4, 5, 6, 7, 8, 9, 10, 11];
    let operation = Flat::from_bytes(bytes);
    assert_eq!(operation.to_bytes(), bytes);
    assert_eq!((operation.kind, operation.vectors), (1, 11));
}
