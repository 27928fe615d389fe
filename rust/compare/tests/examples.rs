//! Worked examples 12 and 13 of document 01, and the like for the words that requests added, through
//! the archive and through the second program.

use compare::case::{Case, Outcome};
use compare::worked::{self, case};
use second::execute::Mistake;

/// What both programs make of a case.
fn both(case: &Case) -> Outcome {
    let mut second = Outcome::default();
    let mut archive = Outcome::default();
    second.run_second(case, Mistake::None);
    archive.run_archive(case);
    assert!(second.agrees(&archive));
    archive
}

#[test]
fn example_12_both_switches_off() {
    let mut case = case(16, 0xC000_0000);
    case.settings.level = 1;
    case.settings.streaming = false;
    case.settings.za_on = false;
    let outcome = both(&case);
    assert_eq!(
        (outcome.answer, outcome.address, outcome.element),
        (4, 0, 0)
    );
    assert!(outcome.z == case.z && outcome.za == case.za);
}

#[test]
fn example_13_bits_that_are_not_looked_at() {
    let mut case = case(32, 0xC080_0000);
    case.p[0] = 0b1110;
    let outcome = both(&case);
    assert_eq!(outcome.answer, 0);
    assert!(outcome.za == case.za);
    case.p[0] = 0b0001;
    let outcome = both(&case);
    assert_eq!(outcome.za[..4], case.z[..4]);
    assert!(outcome.za[4..] == case.za[4..]);
}

/// Those of loads and stores, with answer, address, element and every byte written out.
#[test]
fn loads_and_stores_are_as_written_out() {
    for example in worked::list() {
        assert_eq!(example.check(), Ok(()));
    }
}

/// Below its level an added word is refused as undecodable, also with both switches off.
#[test]
fn added_words_have_their_levels() {
    for (word, least) in [
        (0xC002_0000, 1),
        (0xC006_0800, 2),
        (0xC006_0E00, 3),
        (0xE060_0000, 1),
        (0xE1C0_0000, 1),
    ] {
        let mut case = case(16, word);
        for level in 0..=3 {
            case.settings.level = level;
            let done = if level < least { 3 } else { 0 };
            assert_eq!(both(&case).answer, done, "{word:08X} at {level}");
        }
        case.settings.za_on = false;
        assert_eq!(both(&case).answer, 5);
        case.settings.streaming = false;
        assert_eq!(both(&case).answer, 4);
        case.settings.level = 0;
        assert_eq!(both(&case).answer, 3);
    }
}

/// Example 13 the other way: bits 1, 2 and 3 leave element 0 of the register as it was.
#[test]
fn a_move_from_a_tile_looks_at_the_same_bits() {
    let mut case = case(32, 0xC082_0000);
    case.p[0] = 0b1110;
    let outcome = both(&case);
    assert_eq!(outcome.answer, 0);
    assert!(outcome.z == case.z && outcome.za == case.za);
    case.p[0] = 0b0001;
    let outcome = both(&case);
    assert_eq!(outcome.z[..4], case.za[..4]);
    assert!(outcome.z[4..] == case.z[4..] && outcome.za == case.za);
}

/// Column 3 of tile 1 of 8-byte elements: elements 0 and 3 of four to vector register 2.
#[test]
fn a_column_is_merged_into_a_register() {
    let mut case = case(32, 0xC0C2_8062);
    case.x[12] = 6;
    case.p[..4].copy_from_slice(&[1, 0xFE, 0xFE, 1]);
    let outcome = both(&case);
    let mut wanted = case.z.clone();
    for e in [0, 3] {
        let place = (8 * e + 1) * 32 + 3 * 8;
        wanted[2 * 32 + 8 * e..][..8].copy_from_slice(&case.za[place..place + 8]);
    }
    assert_eq!(outcome.answer, 0);
    assert!(outcome.z == wanted && outcome.za == case.za);
}

/// The words of examples 8 and 7 with bit 9 changed: two vectors that stay, four that become zero.
#[test]
fn the_other_numbers_of_registers() {
    let mut two = case(16, 0xC006_086A);
    two.x[8] = 6;
    let outcome = both(&two);
    assert_eq!(outcome.z[10 * 16..11 * 16], two.za[16..2 * 16]);
    assert_eq!(outcome.z[11 * 16..12 * 16], two.za[9 * 16..10 * 16]);
    assert!(outcome.za == two.za);
    let mut four = case(16, 0xC006_4EFC);
    four.x[10] = 2;
    let outcome = both(&four);
    let mut wanted = four.za.clone();
    for (register, vector) in [(28, 1), (29, 5), (30, 9), (31, 13)] {
        let bytes = vector * 16..(vector + 1) * 16;
        assert_eq!(outcome.z[register * 16..][..16], four.za[bytes.clone()]);
        wanted[bytes].fill(0);
    }
    assert!(outcome.za == wanted);
}
