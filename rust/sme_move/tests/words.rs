//! Operations and words: the words of document 01's worked examples and of the rows that requests
//! added, both ways, and a sweep.

use sme_move::Direction::{Horizontal, Vertical};
use sme_move::ElementSize::{Bits128, Bits16, Bits32, Bits64, Bits8};
use sme_move::{decode, decode_fields, encode};
use sme_move::{Direction, ElementSize, Fields, Kind, Operation, Refusal, RegisterCount};

/// A word, the lowest level that has it, its operation and its eleven numbers.
type Known = (u32, u64, Operation, [u8; 11]);

fn known() -> Vec<Known> {
    [of_document(), of_tiles(), of_array(), of_accesses()].concat()
}

/// Words of document 01's worked examples.
fn of_document() -> Vec<Known> {
    vec![
        (
            0xC080ACA9,
            1,
            Operation::MovaToTile {
                size: Bits32,
                direction: Vertical,
                tile: 2,
                offset: 1,
                index: 13,
                predicate: 3,
                vector: 5,
            },
            [1, 4, 1, 2, 1, 13, 3, 5, 0, 0, 1],
        ),
        (
            0xC0C1000F,
            1,
            Operation::MovaToTile {
                size: Bits128,
                direction: Horizontal,
                tile: 15,
                offset: 0,
                index: 12,
                predicate: 0,
                vector: 0,
            },
            [1, 16, 0, 15, 0, 12, 0, 0, 0, 0, 1],
        ),
        (
            0xC0C2E3BF,
            3,
            Operation::MovazFromTile {
                size: Bits64,
                direction: Vertical,
                tile: 6,
                offset: 1,
                index: 15,
                vector: 31,
            },
            [2, 8, 1, 6, 1, 15, 0, 31, 0, 0, 1],
        ),
        (
            0xC0064CFC,
            2,
            Operation::MovaFromArray {
                registers: RegisterCount::Four,
                offset: 7,
                index: 10,
                first: 28,
            },
            [3, 0, 0, 0, 7, 10, 0, 28, 0, 0, 4],
        ),
        (
            0xC0060A6A,
            3,
            Operation::MovazFromArray {
                registers: RegisterCount::Two,
                offset: 3,
                index: 8,
                first: 10,
            },
            [4, 0, 0, 0, 3, 8, 0, 10, 0, 0, 2],
        ),
        (
            0xE0220020,
            1,
            Operation::St1 {
                size: Bits8,
                direction: Horizontal,
                tile: 0,
                offset: 0,
                index: 12,
                predicate: 0,
                base: 1,
                offset_register: 2,
            },
            [5, 1, 0, 0, 0, 12, 0, 0, 1, 2, 0],
        ),
    ]
}

/// A move from a tile in every size: its word, and its numbers beside size, direction and kind.
fn of_tiles() -> Vec<Known> {
    let sizes = [
        (0xC0025569, Bits8, Horizontal, [0, 11, 14, 5, 9]),
        (0xC04299BE, Bits16, Vertical, [1, 5, 12, 6, 30]),
        (0xC082AD25, Bits32, Vertical, [2, 1, 13, 3, 5]),
        (0xC0C2FDBF, Bits64, Vertical, [6, 1, 15, 7, 31]),
        (0xC0C305E2, Bits128, Horizontal, [15, 0, 12, 1, 2]),
    ];
    let known = |(word, size, direction, numbers)| {
        let [tile, offset, index, predicate, vector] = numbers;
        let operation = Operation::MovaFromTile {
            size,
            direction,
            tile,
            offset,
            index,
            predicate,
            vector,
        };
        let (m, v) = (size.bytes(), direction.number());
        let numbers = [6, m, v, tile, offset, index, predicate, vector, 0, 0, 1];
        (word, 1, operation, numbers)
    };
    sizes.map(known).to_vec()
}

/// The moves from the array with the numbers of registers that document 01 has not.
fn of_array() -> Vec<Known> {
    vec![
        (
            0xC00668FE,
            2,
            Operation::MovaFromArray {
                registers: RegisterCount::Two,
                offset: 7,
                index: 11,
                first: 30,
            },
            [3, 0, 0, 0, 7, 11, 0, 30, 0, 0, 2],
        ),
        (
            0xC0064EFC,
            3,
            Operation::MovazFromArray {
                registers: RegisterCount::Four,
                offset: 7,
                index: 10,
                first: 28,
            },
            [4, 0, 0, 0, 7, 10, 0, 28, 0, 0, 4],
        ),
    ]
}

/// Loads of every size and stores of those that document 01 has not: kind, word, size, direction, and the numbers
/// beside these.
fn of_accesses() -> Vec<Known> {
    let accesses = [
        (5, 0xE071D52E, Bits16, Vertical, [1, 6, 14, 5, 9, 17]),
        (5, 0xE0BE386B, Bits32, Horizontal, [2, 3, 13, 6, 3, 30]),
        (5, 0xE0E4EBEB, Bits64, Vertical, [5, 1, 15, 2, 31, 4]),
        (5, 0xE1F55D4B, Bits128, Horizontal, [11, 0, 14, 7, 10, 21]),
        (7, 0xE006AF2E, Bits8, Vertical, [0, 14, 13, 3, 25, 6]),
        (7, 0xE05F724D, Bits16, Horizontal, [1, 5, 15, 4, 18, 31]),
        (7, 0xE08CC7AE, Bits32, Vertical, [3, 2, 14, 1, 29, 12]),
        (7, 0xE0DB37ED, Bits64, Horizontal, [6, 1, 13, 5, 31, 27]),
        (7, 0xE1C8FA6D, Bits128, Vertical, [13, 0, 15, 6, 19, 8]),
    ];
    let known = |(kind, word, size, direction, numbers)| {
        let operation = access(kind, size, direction, numbers);
        let [tile, offset, index, predicate, base, offset_register] = numbers;
        let (m, v) = (size.bytes(), direction.number());
        let slice = [kind, m, v, tile, offset, index, predicate];
        let mut numbers = [0; 11];
        numbers[..7].copy_from_slice(&slice);
        numbers[8..10].copy_from_slice(&[base, offset_register]);
        (word, 1, operation, numbers)
    };
    accesses.map(known).to_vec()
}

/// A store, kind 5, or a load.
fn access(kind: u8, size: ElementSize, direction: Direction, numbers: [u8; 6]) -> Operation {
    let [tile, offset, index, predicate, base, offset_register] = numbers;
    if kind == 5 {
        return Operation::St1 {
            size,
            direction,
            tile,
            offset,
            index,
            predicate,
            base,
            offset_register,
        };
    }
    Operation::Ld1 {
        size,
        direction,
        tile,
        offset,
        index,
        predicate,
        base,
        offset_register,
    }
}

#[test]
fn known_words_decode_and_encode() {
    for (word, lowest, operation, numbers) in known() {
        for level in 0..=3 {
            let expected = if level < lowest {
                Err(Refusal::Undecodable)
            } else {
                Ok(operation)
            };
            assert_eq!(decode(word, level), expected, "{word:08X} at {level}");
        }
        assert_eq!(encode(operation), Ok(word));
        assert_eq!(Fields::from(operation), Fields::from(numbers));
        assert_eq!(<[u8; 11]>::from(Fields::from(operation)), numbers);
    }
}

#[test]
fn no_level_above_3_decodes() {
    for level in [4, 255, 256, 1 << 32, u64::MAX] {
        assert_eq!(decode(0xC0000000, level), Err(Refusal::BadSettings));
    }
}

/// Numbers that name no operation are refused, and what a kind does not have must be 0.
#[test]
fn numbers_of_no_operation_are_refused() {
    for (_, _, _, numbers) in known() {
        for (place, wrong) in [(0, 0), (0, 8), (0, 9), (1, 3), (2, 2), (10, 3)] {
            let mut other = numbers;
            other[place] = wrong;
            assert_eq!(Fields::from(other).operation(), None);
            assert_eq!(
                sme_move::encode_fields(other.into()),
                Err(Refusal::OutOfRange)
            );
        }
    }
}

/// Each number of the added operations outside its range: the operation is named, and has no word.
#[test]
fn added_operations_have_ranges() {
    let tiles = of_tiles().into_iter().flat_map(|(_, _, operation, _)| {
        let numbers = Fields::from(operation);
        let (tiles, offsets) = (numbers.element_bytes, 16 / numbers.element_bytes);
        let outside = [(3, tiles), (4, offsets), (5, 11), (5, 16), (6, 8), (7, 32)];
        outside.map(|(place, wrong)| (numbers, place, wrong))
    });
    let array = of_array().into_iter().flat_map(|(_, _, operation, _)| {
        let numbers = Fields::from(operation);
        let outside = [(4, 8), (5, 7), (5, 12), (7, numbers.vector + 1), (7, 32)];
        outside.map(|(place, wrong)| (numbers, place, wrong))
    });
    let accesses = of_accesses().into_iter().flat_map(|(_, _, operation, _)| {
        let numbers = Fields::from(operation);
        let (tiles, offsets) = (numbers.element_bytes, 16 / numbers.element_bytes);
        let outside = [
            (3, tiles),
            (4, offsets),
            (5, 11),
            (5, 16),
            (6, 8),
            (8, 32),
            (9, 32),
        ];
        outside.map(|(place, wrong)| (numbers, place, wrong))
    });
    for (numbers, place, wrong) in tiles.chain(array).chain(accesses) {
        let mut other: [u8; 11] = numbers.into();
        other[place] = wrong;
        let operation = Fields::from(other).operation().expect("an operation");
        assert_eq!(encode(operation), Err(Refusal::OutOfRange), "{operation:?}");
    }
}

/// A kind by itself is that of the operation, and all seven are met.
#[test]
fn kinds_have_their_numbers() {
    let mut met = [false; 256];
    for (_, _, operation, numbers) in known() {
        assert_eq!(operation.kind().number(), numbers[0], "{operation:?}");
        met[usize::from(numbers[0])] = true;
    }
    for (number, met) in (0..=255).zip(met) {
        assert_eq!(met, (1..=7).contains(&number));
        let kind = Kind::of_number(number);
        assert_eq!(kind.map(Kind::number), met.then_some(number));
    }
}

/// A load or store has no vector register, and no other kind has its registers.
#[test]
fn what_a_kind_has_not_is_zero() {
    for (_, _, operation, mut numbers) in known() {
        let accesses = matches!(operation, Operation::St1 { .. } | Operation::Ld1 { .. });
        let place = if accesses { 7 } else { 8 };
        numbers[place] = 1;
        assert_eq!(Fields::from(numbers).operation(), None, "{operation:?}");
    }
}

/// Every 61st word of the three top bytes that have instructions.
#[test]
fn what_decodes_encodes_back() {
    let mut decoded = 0;
    for top in [0xC000_0000, 0xE000_0000, 0xE100_0000u32] {
        for word in (top..top + (1 << 24)).step_by(61) {
            let operation = decode(word, 3);
            assert_eq!(operation.map(Fields::from), decode_fields(word, 3));
            if let Ok(operation) = operation {
                assert_eq!(encode(operation), Ok(word));
                decoded += 1;
            }
        }
    }
    assert!(decoded > 100_000, "only {decoded} words decoded");
}
