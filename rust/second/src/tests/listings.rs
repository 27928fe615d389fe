//! Listings (request 5): words in their order up to the allowance or to the
//! first that is not done, and that a run is equal to single calls.

use super::listing_states::{
    after, listing_of, ran, random_call, start, words_with, Call, ALLOWANCES, FARTHER_FAULT,
    FARTHER_OUTSIDE, FAULT, LOAD_OUTSIDE, MISALIGNED, OUTSIDE, UNDECODABLE, WORDS,
};
use super::machine::{plain, DONE};
use crate::inputs::random::Random;
use crate::listing::{ListingMistake, Ran};

/// The four words, the lowest byte of each first.
const BYTES: [u8; 16] = [
    0x20, 0x00, 0x02, 0xE0, 0x01, 0x02, 0x02, 0xC0, 0x22, 0x00, 0x00, 0xC0, 0x62, 0x00, 0x22, 0xE0,
];

/// The right call gives `wanted` and leaves the effects of so many words.
fn expect(call: &Call, wanted: Ran, effects: u64) {
    call.expect(ListingMistake::None, wanted, effects);
}

/// Every allowance up to the end, and beyond it.
#[test]
fn words_are_run_up_to_the_allowance() {
    assert_eq!(listing_of(&WORDS), BYTES);
    for allowance in ALLOWANCES {
        let done = allowance.min(4);
        let call = Call::on(start(), &BYTES, allowance);
        expect(&call, ran(done, DONE), done);
    }
}

/// A refused word in every place: the words before it keep their effect, it
/// has none, and the words after it are not run. To an allowance that ends
/// before it, it does not matter.
#[test]
fn the_first_refused_word_stops_the_run() {
    let refused = [
        (UNDECODABLE, plain(3)),
        (MISALIGNED, plain(6)),
        (OUTSIDE, FAULT),
        (LOAD_OUTSIDE, FAULT),
    ];
    for (word, answer) in refused {
        for place in 0..=4 {
            for allowance in ALLOWANCES {
                let call = Call::new(&words_with(place, &[word]), allowance);
                let place = place as u64;
                if allowance <= place {
                    expect(&call, ran(allowance, DONE), allowance);
                } else {
                    expect(&call, ran(place, answer), place);
                }
            }
        }
    }
}

/// Of several refused words the first gives the answer, be its number lower
/// or higher, and so it is with what 7 carries.
#[test]
fn the_first_refusal_is_given() {
    for (words, answer) in [
        ([UNDECODABLE, OUTSIDE], plain(3)),
        ([OUTSIDE, UNDECODABLE], FAULT),
        ([MISALIGNED, UNDECODABLE], plain(6)),
        ([OUTSIDE, MISALIGNED], FAULT),
        ([OUTSIDE, FARTHER_OUTSIDE], FAULT),
        ([FARTHER_OUTSIDE, OUTSIDE], FARTHER_FAULT),
    ] {
        for place in 0..=4 {
            let call = Call::new(&words_with(place, &words), u64::MAX);
            expect(&call, ran(place as u64, answer), place as u64);
        }
    }
}

/// One word is run as `execute` runs it.
#[test]
fn one_word() {
    let mut machine = start();
    for word in WORDS {
        let mut single = machine.clone();
        assert_eq!(single.run(word), DONE);
        let given = Call::on(machine, &listing_of(&[word]), 1).run(ListingMistake::None);
        assert!(given == (ran(1, DONE), single.clone()), "{word:08X}");
        machine = single;
    }
}

/// The listing from the word on at which a run came to its allowance gives
/// the rest, so that a host may cut it wherever it likes.
#[test]
fn a_listing_may_be_cut() {
    for words in [WORDS.to_vec(), words_with(3, &[OUTSIDE])] {
        let whole = Call::new(&words, u64::MAX).run(ListingMistake::None);
        for cut in 0..=3 {
            let (first, left) = Call::new(&words, cut).run(ListingMistake::None);
            assert_eq!(first, ran(cut, DONE));
            let rest = Call::on(left, &listing_of(&words[cut as usize..]), u64::MAX);
            let (second, left) = rest.run(ListingMistake::None);
            let done = first.done + second.done;
            assert!((Ran { done, ..second }, left) == whole, "{cut}");
        }
    }
}

/// More words than 16 bits can count, the last of them refused.
#[test]
fn a_long_listing() {
    let mut words = vec![WORDS[0]; 70_000];
    words.push(UNDECODABLE);
    for (allowance, answer) in [
        (65_536, DONE),
        (69_999, DONE),
        (70_000, DONE),
        (70_001, plain(3)),
        (u64::MAX, plain(3)),
    ] {
        let call = Call::new(&words, allowance);
        let (given, left) = call.run(ListingMistake::None);
        assert_eq!(given, ran(allowance.min(70_000), answer));
        assert!(left == after(&call.machine, 1));
    }
}

/// A run gives and leaves what single calls do, and every answer is among
/// those that stop one: those of words, but for 4 and 5, after some were done.
#[test]
fn equal_to_single_calls() {
    let mut random = Random::new(50);
    let mut stops = [0; 10];
    for turn in 0..6000 {
        let call = random_call(&mut random);
        let wanted = call.by_single_calls();
        let given = call.run(ListingMistake::None);
        assert_eq!(given.0, wanted.0, "{turn}");
        assert!(given == wanted, "{turn} left another state");
        let mut left = call.machine.clone();
        let again = left.run_listing_with(ListingMistake::None, &call.listing, call.allowance);
        assert!((again, left) == wanted, "{turn}");
        let answer = wanted.0.answer as usize;
        let counts = wanted.0.done > 1 || [1, 2, 4, 5, 9].contains(&answer);
        stops[answer] += usize::from(counts);
    }
    for answer in [0, 1, 2, 3, 4, 5, 6, 7, 9] {
        assert!(stops[answer] >= 10, "{answer}: {stops:?}");
    }
}
