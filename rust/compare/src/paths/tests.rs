//! Predicates made by hand, of each element size, and cases that are counted
//! or not.

use super::bits::{alike, bits, can_mix, each, looked_at, Bits};
use super::taken::{taken, Path, Taken, PATHS};
use super::Paths;
use crate::case::{Case, Outcome};
use crate::rows::Drawn;
use crate::view::View;
use crate::worked::case_within;
use second::execute::Mistake;
use second::inputs::random::Random;

const SIZES: [usize; 5] = [1, 2, 4, 8, 16];

#[test]
fn each_size_goes_by_its_own_bits() {
    for (m, even, odd) in [
        (1, 0xFF, 0xFF),
        (2, 0x55, 0x55),
        (4, 0x11, 0x11),
        (8, 0x01, 0x01),
        (16, 0x01, 0),
    ] {
        for byte in 0..32 {
            let own = if byte % 2 == 0 { even } else { odd };
            assert_eq!(looked_at(m, byte), own, "{m}, byte {byte}");
        }
    }
}

/// Of every byte and size: it is set or clear if all elements are active or
/// none, and mixed otherwise.
#[test]
fn every_byte_is_what_its_elements_are() {
    for m in SIZES {
        for byte in 0..=0xFF_u8 {
            let elements = (0..8).step_by(m);
            let active = elements.clone().filter(|bit| byte >> bit & 1 == 1).count();
            let wanted = match active {
                0 => Bits::Clear,
                all if all == elements.len() => Bits::Set,
                _ => Bits::Mixed,
            };
            assert_eq!(bits(byte, looked_at(m, 0)), wanted, "{m}: {byte:02X}");
            assert!(wanted != Bits::Mixed || can_mix(looked_at(m, 0)));
        }
    }
}

#[test]
fn odd_bytes_are_not_looked_at_for_elements_of_16_bytes() {
    let bytes = [0x01, 0x00, 0xFE, 0xFF, 0xFF, 0xFF];
    let found: Vec<Bits> = each(&bytes, 16).collect();
    assert_eq!(found, [Bits::Set, Bits::Clear, Bits::Set]);
    assert_eq!(each(&bytes, 8).count(), 6);
    assert_eq!(alike(&[0x01, 0x00, 0x01, 0x00], 16), Some(Bits::Set));
    assert_eq!(alike(&[0x01, 0x00, 0x01, 0x00], 8), None);
    assert_eq!(alike(&[0xFE, 0xFF, 0xFE, 0xFF], 16), Some(Bits::Clear));
}

/// A block as one number, under the bits of its size, says the same.
#[test]
fn blocks_are_what_they_are_as_numbers() {
    let mut random = Random::new(4);
    for (m, bits) in [
        (1, u64::MAX),
        (2, 0x5555_5555_5555_5555),
        (4, 0x1111_1111_1111_1111),
        (8, 0x0101_0101_0101_0101),
        (16, 0x0001_0001_0001_0001),
    ] {
        for _ in 0..1000 {
            let other = random.bits();
            for number in [other, other & !bits, other | bits] {
                let found = alike(&number.to_le_bytes(), m);
                let own = number & bits;
                assert_eq!(found == Some(Bits::Set), own == bits, "{m}: {number:016X}");
                assert_eq!(found == Some(Bits::Clear), own == 0, "{m}: {number:016X}");
            }
        }
    }
}

/// A predicate and how often it takes each path, in the order of `PATHS`.
type Example<'a> = (&'a [u8], Taken);

fn check(m: usize, examples: &[Example]) {
    for (predicate, wanted) in examples {
        assert_eq!(taken(predicate, m), *wanted, "{m}: {predicate:02X?}");
    }
}

#[test]
fn predicates_of_elements_of_1_byte() {
    check(
        1,
        &[
            (&[0xFF; 2], [1, 0, 0, 0, 0, 0, 2, 0, 0]),
            (&[0xFF, 0, 0x7F, 0x01], [0, 0, 0, 0, 0, 0, 1, 1, 2]),
            (&[0xFF; 8], [1, 0, 1, 0, 0, 0, 0, 0, 0]),
            (&[0; 16], [0, 1, 0, 2, 0, 0, 0, 0, 0]),
            (&[0x55; 32], [0, 0, 0, 0, 4, 0, 0, 0, 0]),
            (
                &[0xFF, 0xFF, 0xFF, 0x03, 0, 0, 0, 0],
                [0, 0, 0, 0, 0, 1, 3, 4, 1],
            ),
        ],
    );
}

#[test]
fn predicates_of_elements_of_2_bytes() {
    check(
        2,
        &[
            (&[0x55, 0xFF], [1, 0, 0, 0, 0, 0, 2, 0, 0]),
            (&[0xAA, 0, 0x54, 0x5D], [0, 0, 0, 0, 0, 0, 1, 2, 1]),
            (&[0x55; 8], [1, 0, 1, 0, 0, 0, 0, 0, 0]),
            (&[0xAA; 8], [0, 1, 0, 1, 0, 0, 0, 0, 0]),
            (&[0xEB; 8], [0, 0, 0, 0, 1, 0, 0, 0, 0]),
            (
                &[0x55, 0x7F, 0x15, 0x05, 0, 0, 0xAA, 0x01],
                [0, 0, 0, 0, 0, 1, 2, 3, 3],
            ),
        ],
    );
}

#[test]
fn predicates_of_elements_of_4_bytes() {
    check(
        4,
        &[
            (&[0x11, 0x13, 0x31, 0xFF], [1, 0, 0, 0, 0, 0, 4, 0, 0]),
            (&[0xEE, 0, 0x10, 0x01], [0, 0, 0, 0, 0, 0, 0, 2, 2]),
            (&[0x55; 16], [1, 0, 2, 0, 0, 0, 0, 0, 0]),
            (&[0xAA; 8], [0, 1, 0, 1, 0, 0, 0, 0, 0]),
            (&[0xEF; 8], [0, 0, 0, 0, 1, 0, 0, 0, 0]),
            (
                &[0x10, 0x01, 0x10, 0x01, 0x10, 0x01, 0x10, 0x11],
                [0, 0, 0, 0, 0, 1, 1, 0, 7],
            ),
        ],
    );
}

#[test]
fn predicates_of_elements_of_8_bytes() {
    check(
        8,
        &[
            (&[0x01, 0x03], [1, 0, 0, 0, 0, 0, 2, 0, 0]),
            (&[0xFE, 0x01, 0x81, 0x80], [0, 0, 0, 0, 0, 0, 2, 2, 0]),
            (&[0x01; 8], [1, 0, 1, 0, 0, 0, 0, 0, 0]),
            (&[0xFE; 16], [0, 1, 0, 2, 0, 0, 0, 0, 0]),
            (
                &[0xFF, 0x01, 0x01, 0x02, 0, 0, 0, 0],
                [0, 0, 0, 0, 0, 1, 3, 5, 0],
            ),
        ],
    );
}

#[test]
fn predicates_of_elements_of_16_bytes() {
    check(
        16,
        &[
            (&[0x01, 0x00], [1, 0, 0, 0, 0, 0, 1, 0, 0]),
            (&[0x00, 0x01], [0, 1, 0, 0, 0, 0, 0, 1, 0]),
            (&[0x01, 0x00, 0xFE, 0xFF], [0, 0, 0, 0, 0, 0, 1, 1, 0]),
            (&[1, 0, 1, 0, 1, 0, 1, 0], [1, 0, 1, 0, 0, 0, 0, 0, 0]),
            (&[0, 1, 0, 1, 0, 1, 0, 1], [0, 1, 0, 1, 0, 0, 0, 0, 0]),
            (&[1, 0, 0, 0, 1, 1, 1, 1], [0, 0, 0, 0, 0, 1, 3, 1, 0]),
        ],
    );
}

/// Each block is for itself, and the bytes of one that is alike are not
/// counted.
#[test]
fn blocks_of_one_predicate_are_told_apart() {
    let blocks = [
        [0xFF; 8],
        [0; 8],
        [0x7F; 8],
        [0xFF, 0xFF, 0, 0, 0, 0, 0, 0x01],
    ];
    assert_eq!(taken(&blocks.concat(), 1), [0, 0, 1, 1, 1, 1, 2, 5, 1]);
    assert_eq!(taken(&blocks[..2].concat(), 1), [0, 0, 1, 1, 0, 0, 0, 0, 0]);
}

/// Whatever the size, the bytes of a predicate that is all true or empty are
/// told so with any bits beside.
#[test]
fn bits_beside_do_not_matter() {
    for m in SIZES {
        for byte in 0..32 {
            for beside in 0..=0xFF {
                let own = looked_at(m, byte);
                if own != 0 {
                    assert_eq!(bits(beside | own, own), Bits::Set);
                    assert_eq!(bits(beside & !own, own), Bits::Clear);
                }
            }
        }
    }
}

/// A word of each of the four operations on a row of a tile of bytes, all
/// under predicate 0, and the same on a column.
const WORDS: [[u32; 2]; 4] = [
    [0xC000_0000, 0xC000_8000],
    [0xC002_0000, 0xC002_8000],
    [0xE020_0000, 0xE020_8000],
    [0xE000_0000, 0xE000_8000],
];

/// Vectors of 64 bytes in buffers for longer ones, all elements active, and
/// memory of so many bytes.
fn case(word: u32, memory: usize) -> Case {
    let mut case = case_within(64, 128, word);
    case.p[..8].fill(0xFF);
    case.memory = vec![3; memory];
    case
}

fn counted(case: &Case) -> Paths {
    let mut outcome = Outcome::default();
    outcome.run_second(case, Mistake::None);
    let mut paths = Paths::new(Drawn::All);
    paths.add(&View::new(case, &outcome));
    paths
}

/// The lines that are not all zero.
fn lines(paths: &Paths) -> Vec<(&str, Taken)> {
    let lines = paths.lines().map(|line| (line.name, *line.counts));
    let any = |counts: &Taken| counts.iter().any(|count| *count > 0);
    lines.filter(|(_, counts)| any(counts)).collect()
}

#[test]
fn rows_that_are_moved_are_counted_by_encoding() {
    const FULL: Taken = [1, 0, 1, 0, 0, 0, 0, 0, 0];
    let names = ["move to tile", "move from tile", "store", "load"];
    let mut all = Paths::new(Drawn::All);
    for (name, [horizontal, vertical]) in names.into_iter().zip(WORDS) {
        let paths = counted(&case(horizontal, 64));
        let name = format!("{name}, m=1");
        assert_eq!(lines(&paths), [(name.as_str(), FULL)]);
        assert_eq!(lines(&counted(&case(vertical, 64))), []);
        all.merge(&paths);
        all.merge(&paths);
    }
    let twice = FULL.map(|count| 2 * count);
    assert_eq!(lines(&all).len(), 4);
    assert!(lines(&all).iter().all(|(_, counts)| *counts == twice));
}

/// The predicate is that of the word, as far as the vector length.
#[test]
fn the_predicate_of_the_word_is_counted() {
    let mut case = case(WORDS[0][0] | 3 << 10, 0);
    assert_eq!(lines(&counted(&case))[0].1, [0, 1, 0, 1, 0, 0, 0, 0, 0]);
    case.p[3 * 16 + 7] = 0x80;
    assert_eq!(lines(&counted(&case))[0].1, [0, 0, 0, 0, 0, 1, 0, 7, 1]);
}

#[test]
fn refused_cases_and_words_without_a_predicate_are_not_counted() {
    let outside = case(WORDS[2][0], 63);
    assert_eq!(lines(&counted(&outside)), []);
    let mut off = case(WORDS[0][0], 0);
    off.settings.za_on = false;
    assert_eq!(lines(&counted(&off)), []);
    // A move and zero from a tile, an array form, and a word of no encoding.
    for word in [0xC002_0200, 0xC006_0C00, 0xC000_0010] {
        assert_eq!(lines(&counted(&case(word, 0))), []);
    }
}

/// An empty run lacks nine paths of each encoding of the three small sizes,
/// and seven of the others, which cannot be mixed.
#[test]
fn missing_paths_are_told() {
    let each = 3 * 9 + 2 * 7;
    for (drawn, count) in [
        (Drawn::All, 4 * each),
        (Drawn::Request1, each),
        (Drawn::Request2, 2 * each - 9),
    ] {
        assert_eq!(Paths::new(drawn).missing().len(), count);
    }
    let missing = counted(&case(WORDS[3][0], 64)).missing();
    assert_eq!(missing.len(), 4 * each - 2);
    let never = |name: &str, what: &str| {
        let line = format!("never: done, {name}, horizontal, {what}");
        missing.contains(&line)
    };
    assert!(!never("load, m=1", "a block that is all set"));
    assert!(!never("load, m=1", "a predicate that is all set"));
    assert!(never("load, m=1", "a block of mixed bytes alone"));
    assert!(never("store, m=1", "a block that is all set"));
    assert!(never("move to tile, m=16", "a byte of ones"));
    assert!(!never("move to tile, m=16", "a mixed byte"));
    assert!(!never(
        "move from tile, m=8",
        "a block of mixed bytes alone"
    ));
}

/// Only mixed bytes are ever out of reach.
#[test]
fn paths_can_occur_by_size() {
    for (path, _) in PATHS {
        for m in SIZES {
            let mixed = [Path::Block(Some(Bits::Mixed)), Path::Byte(Bits::Mixed)];
            assert_eq!(path.can_occur(m), m <= 4 || !mixed.contains(&path));
        }
    }
}

#[test]
fn the_table_has_a_line_for_each_encoding_and_a_dash_for_what_cannot_be() {
    let told = counted(&case(WORDS[0][0], 0)).to_string();
    assert_eq!(told.lines().count(), 2 + 4 * SIZES.len());
    let line = |name: &str| {
        let found = told.lines().find(|line| line.starts_with(name));
        let columns = found.expect(name)[name.len()..].split_whitespace();
        columns.collect::<Vec<_>>().join(" ")
    };
    assert_eq!(line("move to tile, m=1 "), "1 0 1 0 0 0 0 0 0");
    assert_eq!(line("move to tile, m=4 "), "0 0 0 0 0 0 0 0 0");
    assert_eq!(line("load, m=8 "), "0 0 0 0 - 0 0 0 -");
    assert_eq!(line("store, m=16 "), "0 0 0 0 - 0 0 0 -");
}
