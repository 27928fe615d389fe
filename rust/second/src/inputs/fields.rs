//! The encode test inputs: eleven bytes each.

use super::examples;
use super::random::Random;
use super::rows::{Row, PATTERNS, ROWS};
use super::unique::Unique;
use crate::flat::{place, LENGTH};

type Numbers = [u8; LENGTH];
type Fields = Unique<Numbers>;

/// Kinds that are known (so that a row meets the kind of another) and some
/// that are not.
const KINDS: [u8; 10] = [0, 1, 2, 3, 4, 5, 6, 7, 8, 255];
/// Element sizes, known and unknown.
const ELEMENT_BYTES: [u8; 10] = [0, 1, 2, 3, 4, 5, 8, 16, 32, 255];
/// Directions, known and unknown.
const DIRECTIONS: [u8; 5] = [0, 1, 2, 3, 255];
/// Numbers of vector registers; the array kinds allow two of them, every
/// other kind one.
const VECTORS: [u8; 7] = [0, 1, 2, 3, 4, 5, 255];
/// What to put where a kind has no field.
const ABSENT: [u8; 2] = [1, 255];

/// Fixed seed, so that every run gives the same list.
const SEED: u64 = 0x5EC0_0002;

/// The whole list, without doubles.
pub fn list() -> Vec<Numbers> {
    let mut fields = Fields::default();
    add_examples(&mut fields);
    for row in &ROWS {
        add_good(&mut fields, row);
        for start in starts(row) {
            add_small_sets(&mut fields, start);
            add_beyond(&mut fields, row, start);
            add_absent(&mut fields, row, start);
        }
        add_first_vectors(&mut fields, row);
    }
    add_random(&mut fields, &mut Random::new(SEED));
    fields.into_items()
}

/// The words of section 7 of document 01 that decode, the refusals of its
/// example 11, and the like for the added rows.
fn add_examples(fields: &mut Fields) {
    for (_, _, numbers) in examples::DECODING {
        fields.add(numbers);
    }
    for numbers in examples::UNENCODABLE {
        fields.add(numbers);
    }
}

/// Numbers in range: every combination of ends, and every value of each
/// field.
fn add_good(fields: &mut Fields, row: &Row) {
    for bits in row.corners() {
        fields.add(row.numbers(&bits));
    }
    for bits in row.sweeps(&row.mixed(PATTERNS[0])) {
        fields.add(row.numbers(&bits));
    }
}

/// Good numbers from which the bad ones are made by changing one of them.
/// There are three, so that a cause shows at low and at high fields.
fn starts(row: &Row) -> [Numbers; 3] {
    [row.lowest(), row.highest(), row.mixed(PATTERNS[1])].map(|bits| row.numbers(&bits))
}

/// Kind, element size, direction and number of registers, each at values
/// that the row has and has not.
fn add_small_sets(fields: &mut Fields, start: Numbers) {
    add_values(fields, start, place::KIND, &KINDS);
    add_values(fields, start, place::ELEMENT_BYTES, &ELEMENT_BYTES);
    add_values(fields, start, place::VECTORS, &VECTORS);
    add_values(fields, start, place::DIRECTION, &DIRECTIONS);
}

/// Each field just outside its range, at the next step, and at 255.
fn add_beyond(fields: &mut Fields, row: &Row, start: Numbers) {
    for field in row.fields {
        let last = field.number(field.top());
        let outside = [last + 1, last + field.scale, last + 2 * field.scale, 255];
        add_values(fields, start, field.place, &outside);
        // The index registers have numbers below their four, too.
        if field.first > 0 {
            let below = [0, 3, field.first - 4, field.first - 1];
            add_values(fields, start, field.place, &below);
        }
    }
}

/// Each number that the row does not have, set to something.
fn add_absent(fields: &mut Fields, row: &Row, start: Numbers) {
    let own = [place::KIND, place::ELEMENT_BYTES, place::VECTORS];
    for place in 0..LENGTH {
        if !row.has(place) && !own.contains(&place) {
            add_values(fields, start, place, &ABSENT);
        }
    }
}

/// Every first register, multiple or not, and some beyond the last.
fn add_first_vectors(fields: &mut Fields, row: &Row) {
    let start = row.numbers(&row.mixed(PATTERNS[1]));
    for first in 0..36 {
        add_values(fields, start, place::FIRST_VECTOR, &[first]);
    }
}

/// `start` with one number replaced by each of `values`.
fn add_values(fields: &mut Fields, start: Numbers, place: usize, values: &[u8]) {
    for &value in values {
        let mut numbers = start;
        numbers[place] = value;
        fields.add(numbers);
    }
}

/// Random rows in range, half of them again with one byte replaced, and
/// bytes without any choice.
fn add_random(fields: &mut Fields, random: &mut Random) {
    for turn in 0..150 * ROWS.len() {
        let row = &ROWS[random.below(ROWS.len())];
        let mut numbers = row.numbers(&row.random(random));
        fields.add(numbers);
        if turn % 2 == 0 {
            numbers[random.below(LENGTH)] = random.byte();
            fields.add(numbers);
        }
    }
    for _ in 0..500 {
        fields.add([0; LENGTH].map(|_: u8| random.byte()));
    }
}
