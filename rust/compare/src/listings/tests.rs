//! Unit tests of the comparison of listings; they do not ask the archive.

use super::arguments::{usage, Arguments};
use super::counts::{Counts, ENOUGH};
use super::ended::Ended;
use super::generate::generate;
use super::generate::places::{part, Plan, MOST_WORDS, PLACES};
use super::listing::Listing;
use super::rules;
use crate::exhaustive::blocks::Sum;
use crate::worked::{case, case_within};
use second::inputs::random::Random;
use second::listing::ListingMistake;
use std::ffi::OsString;

/// A move and zero of row 0 of the byte tile to vector register 0.
const WORD: u32 = 0xC002_0200;
/// A word without an encoding.
const REFUSED: u32 = 0xC000_0010;

fn read(line: &str) -> Result<Arguments, String> {
    Arguments::read(line.split_whitespace().map(OsString::from))
}

/// A listing of these words on vectors of 16 bytes.
fn listing(words: &[u32], allowance: u64) -> Listing {
    let done = words.iter().take_while(|word| **word == WORD);
    Listing {
        case: case(16, 0),
        bytes: words.iter().flat_map(|word| word.to_le_bytes()).collect(),
        allowance,
        reach: done.count(),
    }
}

/// What the second program makes of a listing.
fn ended(listing: &Listing) -> Ended {
    let mut ended = Ended::default();
    ended.run_second(ListingMistake::None, listing);
    ended
}

/// The answer and the words done.
fn told(listing: &Listing) -> (u32, u64) {
    let ended = ended(listing);
    (ended.outcome.answer, ended.done)
}

#[test]
fn arguments_are_read() {
    let plain = read("").unwrap();
    assert_eq!(plain.draws.count, 200_000);
    assert_eq!(plain.mistake, ListingMistake::None);
    let all = read("--mistake NoNine --seed 0x1F --count 12").unwrap();
    assert_eq!((all.draws.seed, all.draws.count), (31, 12));
    assert_eq!(all.mistake, ListingMistake::NoNine);
}

#[test]
fn bad_arguments_are_errors() {
    for line in ["--seed", "--count x", "--mistake None", "--other 1", "7"] {
        assert!(read(line).is_err(), "{line}");
    }
}

#[test]
fn mistakes_are_in_the_help_text() {
    for (name, _) in ListingMistake::NAMED {
        assert!(usage().contains(&format!("NAME: {name}")), "{name}");
    }
}

#[test]
fn words_have_their_lowest_byte_first() {
    let mut own = listing(&[], 1);
    own.bytes = vec![0x10, 0x32, 0x54, 0x76, 1, 2, 3, 4, 5];
    assert_eq!(own.words().collect::<Vec<_>>(), [0x7654_3210, 0x0403_0201]);
    assert_eq!(own.odd(), 1);
    for (allowance, count) in [(0, 0), (1, 1), (2, 2), (3, 2), (1 << 32, 2), (u64::MAX, 2)] {
        own.allowance = allowance;
        assert_eq!(own.allowed().count(), count);
    }
}

/// Answers before any word, with and without words, and as the second program
/// gives them.
#[test]
fn rules_are_those_of_the_second_program() {
    for (words, allowance) in [(&[WORD; 3][..], 2), (&[WORD], 0), (&[], 1), (&[], 0)] {
        let fresh = || listing(words, allowance);
        assert_eq!(rules::refusal(&fresh()), None);
        type Spoil = fn(&mut Listing);
        let spoils: [(u32, Spoil); 12] = [
            (1, |own| own.case.settings.vector_bytes = 17),
            (1, |own| own.case.settings.largest_vector_bytes = 0),
            (1, |own| own.case.settings.largest_vector_bytes = 24),
            (1, |own| own.case.settings.vector_bytes = 32),
            (1, |own| own.case.settings.level = 4),
            (2, |own| own.case.x.truncate(31)),
            (2, |own| own.case.z.push(0)),
            (2, |own| own.case.p.clear()),
            (2, |own| own.case.za.truncate(255)),
            (2, |own| {
                own.case.settings.memory_address = u64::MAX;
                own.case.memory.resize(2, 0);
            }),
            (9, |own| own.bytes.push(0)),
            (9, |own| own.bytes.extend([0; 3])),
        ];
        for (number, (answer, spoil)) in spoils.into_iter().enumerate() {
            let mut own = fresh();
            spoil(&mut own);
            assert_eq!(rules::refusal(&own), Some(answer), "spoil {number}");
            assert_eq!(told(&own), (answer, 0), "spoil {number}");
            // The length is odd in each case now.
            own.bytes.resize(own.bytes.len() / 4 * 4 + 3, 0);
            assert_eq!(rules::refusal(&own), Some(answer), "spoil {number}");
        }
    }
}

/// The last byte of memory may be the last that there is, and buffers may be
/// for longer vectors.
#[test]
fn rules_allow_what_is_at_the_border() {
    let mut own = listing(&[WORD], 1);
    own.case.memory.resize(2, 0);
    own.case.settings.memory_address = u64::MAX - 1;
    assert_eq!(rules::refusal(&own), None);
    own.case = case_within(16, 64, 0);
    assert_eq!(rules::refusal(&own), None);
    own.case.za.truncate(256);
    assert_eq!(rules::refusal(&own), Some(2));
}

#[test]
fn parts_have_their_places() {
    for (number, (_, places)) in PLACES.into_iter().enumerate() {
        let last = places.end - 1;
        let parts = [places.start, last].map(|place| part(place as u64));
        assert_eq!(parts, [number; 2]);
    }
    assert_eq!(part(MOST_WORDS as u64), PLACES.len() - 1);
}

/// Plans have 0 to 200 words, a stop at every place, and words behind it or
/// none.
#[test]
fn plans_have_every_length_and_every_stop() {
    let mut random = Random::new(3);
    let mut ends = [false; MOST_WORDS + 1];
    let mut stops = [[false; 2]; MOST_WORDS];
    for _ in 0..20_000 {
        ends[Plan::draw(&mut random, false).words] = true;
        let plan = Plan::draw(&mut random, true);
        let stop = plan.stop.expect("a word stops the run");
        assert!(stop < plan.words && plan.words <= MOST_WORDS);
        stops[stop][usize::from(stop + 1 == plan.words)] = true;
    }
    assert!(ends.iter().all(|seen| *seen));
    let last = MOST_WORDS - 1;
    assert!(stops[..last].as_flattened().iter().all(|seen| *seen));
    assert_eq!(stops[last], [false, true]);
}

/// Where nothing but a word stops the run it goes as far as the generator
/// says, and allowances beside the stop are beside it.
#[test]
fn listings_reach_as_far_as_they_say() {
    let mut random = Random::new(4);
    let mut own = Listing::empty();
    let mut refused = 0;
    for number in 0..5000 {
        generate(&mut random, &mut own);
        if rules::refusal(&own).is_some() {
            continue;
        }
        let words = own.words().len();
        own.allowance = u64::MAX;
        let (answer, done) = told(&own);
        assert_eq!(done, own.reach as u64, "listing {number}");
        assert_eq!(answer != 0, own.reach < words, "listing {number}");
        refused += usize::from(answer != 0);
    }
    assert!(refused > 1000, "{refused}");
}

/// As few listings as are judged, by the second program alone, leave nothing
/// to complain of.
#[test]
fn listings_reach_all_that_can_occur() {
    let mut random = Random::new(11);
    let mut own = Listing::empty();
    let mut second = Ended::default();
    let mut counts = Counts::default();
    for _ in 0..ENOUGH {
        generate(&mut random, &mut own);
        second.run_second(ListingMistake::None, &own);
        counts.add(&own, &second);
    }
    assert_eq!(counts.check(), Ok(()));
    assert_eq!(counts.listings(), ENOUGH);
    assert!(counts.done() > 20 * ENOUGH);
}

/// Sees that a line of this name has these counts.
fn assert_line(told: &str, name: &str, numbers: &[&str]) {
    let is = |line: &str| {
        let rest = line.strip_prefix(name);
        rest.is_some_and(|rest| rest.split_whitespace().eq(numbers.iter().copied()))
    };
    assert!(told.lines().any(is), "{name} {numbers:?} in\n{told}");
}

/// What is counted of a few listings: the stop and its place, the allowance,
/// odd bytes, listings without a word, and words.
#[test]
fn listings_are_counted() {
    let mut counts = Counts::default();
    let mut odd = listing(&[WORD], 0);
    odd.bytes.push(7);
    let mut settings = listing(&[], 0);
    settings.case.settings.level = 4;
    let mut stopped = vec![WORD; 12];
    stopped.push(REFUSED);
    for own in [
        listing(&[WORD; 3], 3),
        listing(&[WORD; 3], 2),
        listing(&stopped, u64::MAX),
        listing(&[], 5),
        odd,
        settings,
    ] {
        counts.add(&own, &ended(&own));
    }
    assert_eq!((counts.listings(), counts.done()), (6, 3 + 2 + 12));
    let told = counts.to_string();
    let has = |name, numbers: &[&str]| assert_line(&told, name, numbers);
    has("0 at the end", &["1", "1", "0", "0"]);
    has("0 at the allowance", &["0", "1", "0", "0"]);
    has("3", &["0", "0", "1", "0"]);
    has("9", &["1", "-", "-", "-"]);
    has("at the end", &["1", "1"]);
    has("near 2^64", &["1", "0"]);
    has("1", &["0", "0", "1"]);
    has("empty listing", &["1", "0", "0", "-"]);
    has("allowance 0", &["0", "0", "0", "1"]);
    has("both", &["0", "1", "0", "-"]);
    has("move and zero from tile, m=1", &["17"]);
    has("vector length 16 in buffers for 16", &["6", "0", "17"]);
    assert_eq!(counts.check(), Ok(()));
}

/// An empty run has much to complain of: stops at their places, elements of
/// 7, allowances, odd lengths, listings without a word, encodings and pairs.
#[test]
fn missing_cells_are_told() {
    let own = listing(&[WORD], 1);
    let mut counts = Counts::default();
    let second = ended(&own);
    for _ in 0..ENOUGH {
        counts.add(&own, &second);
    }
    let told = counts.check().expect_err("nothing else was compared");
    let stops = 10 + 5 * 3;
    let all = stops + 2 * 4 + 11 * 2 + 3 * 3 + 4 + 3 * 2 + 29 + 15 * 3;
    // Of these there are one stop, allowances of two kinds, one encoding, and
    // listings and words of one pair.
    assert_eq!(told.lines().count(), all - 1 - 2 - 1 - 2, "{told}");
    for line in [
        "FAILED: stop, 6, 100 and more: 0",
        "FAILED: element of 7, above 0, word 0: 0",
        "FAILED: no word to run, empty listing, 2: 0",
    ] {
        assert!(told.lines().any(|own| own == line), "{line} in\n{told}");
    }
}

/// What cannot be is told of even one listing.
#[test]
fn impossible_ends_are_told() {
    let own = listing(&[WORD; 3], 3);
    let spoiled = |answer, done| {
        let mut ended = ended(&own);
        (ended.outcome.answer, ended.done) = (answer, done);
        let mut counts = Counts::default();
        counts.add(&own, &ended);
        counts.check().expect_err("it cannot be")
    };
    let expected = "FAILED: answer 0 after 2 words, allowance 3";
    assert_eq!(spoiled(0, 2), expected);
    let expected = "FAILED: answer 8 after 1 words, allowance 3";
    assert_eq!(spoiled(8, 1), expected);
    assert_eq!(spoiled(4, 1), "FAILED: stop, 4, 1 to 9: 1");
    assert_eq!(spoiled(9, 3), "FAILED: stop, 9, 1 to 9: 1");
    let refused = listing(&[REFUSED], 1);
    let mut done = ended(&refused);
    (done.outcome.answer, done.done) = (0, 1);
    let mut counts = Counts::default();
    counts.add(&refused, &done);
    let told = counts.check().expect_err("it cannot be");
    assert_eq!(told, "FAILED: word C0000010 is done");
}

#[test]
fn counts_are_added_up() {
    let draw = |seed, count| {
        let mut random = Random::new(seed);
        let mut own = Listing::empty();
        let mut counts = Counts::default();
        for _ in 0..count {
            generate(&mut random, &mut own);
            counts.add(&own, &ended(&own));
        }
        counts
    };
    let (mut one, other) = (draw(1, 20), draw(2, 30));
    let sums = (one.listings() + other.listings(), one.done() + other.done());
    let mut empty = Counts::default();
    empty.merge(draw(1, 20));
    assert_eq!(empty, one);
    one.merge(other);
    assert_eq!((one.listings(), one.done()), sums);
}
