//! The answers that stop a listing (request 5, which adds 9 to document 01,
//! section 6): when each is given, in which order, and that 1, 2 and 9 need no
//! word.

use super::listing_states::{
    listing_of, ran, start, words_with, Call, ALLOWANCES, FAULT, MISALIGNED, OUTSIDE, UNDECODABLE,
    WORDS,
};
use super::machine::{plain, Answer, Machine, DONE};
use crate::listing::ListingMistake;

/// Listings without a word, with good ones, with one that is refused, and of
/// lengths that are no multiples of 4.
fn listings() -> Vec<Vec<u8>> {
    let good = listing_of(&WORDS);
    let mut all = vec![vec![], good.clone(), listing_of(&[UNDECODABLE])];
    all.extend([1, 2, 3, 5, 15].map(|length| good[..length].to_vec()));
    all
}

/// Every listing is refused with that number, whatever the allowance.
fn refused(machine: &Machine, number: u32) {
    for listing in listings() {
        for allowance in ALLOWANCES {
            Call::on(machine.clone(), &listing, allowance).expect_refused(number);
        }
    }
}

/// These words on that state give the answer before any of them is done.
fn stopped(machine: &Machine, words: &[u32], answer: Answer) {
    for allowance in [1, 2, u64::MAX] {
        let call = Call::on(machine.clone(), &listing_of(words), allowance);
        call.expect(ListingMistake::None, ran(0, answer), 0);
    }
}

/// Answer 1, with no word to run too: vector lengths, largest lengths and
/// levels that there are not.
#[test]
fn bad_settings() {
    for vector_bytes in [0, 15, 24, 512, 1 << 32 | 16, u64::MAX] {
        let mut machine = start();
        machine.settings.vector_bytes = vector_bytes;
        refused(&machine, 1);
    }
    for largest in [0, 8, 24, 512, 1 << 32 | 16, u64::MAX] {
        let mut machine = start();
        machine.settings.largest_vector_bytes = largest;
        refused(&machine, 1);
    }
    let mut below = Machine::new(32);
    below.settings.largest_vector_bytes = 16;
    refused(&below, 1);
    for level in [4, 256, 1 << 32 | 3, u64::MAX] {
        let mut machine = start();
        machine.settings.level = level;
        refused(&machine, 1);
    }
}

/// Answer 2, with no word to run too: each buffer too short and too long, and
/// of the lengths that B fixes where a longer one does.
#[test]
fn wrong_lengths() {
    for length in [0, 31, 33] {
        let mut machine = start();
        machine.x.resize(length, 0);
        refused(&machine, 2);
    }
    for length in [0, 511, 513] {
        let mut machine = start();
        machine.z.resize(length, 0);
        refused(&machine, 2);
    }
    for length in [0, 31, 33] {
        let mut machine = start();
        machine.p.resize(length, 0);
        refused(&machine, 2);
    }
    for length in [0, 255, 257] {
        let mut machine = start();
        machine.za.resize(length, 0);
        refused(&machine, 2);
    }
    let mut short = start();
    short.settings.largest_vector_bytes = 32;
    refused(&short, 2);
}

/// Answer 2 as well: memory may end at 2^64 and not beyond.
#[test]
fn memory_ends_at_the_last_address() {
    let mut machine = start();
    machine.settings.memory_address = u64::MAX - 63;
    for allowance in ALLOWANCES {
        let call = Call::on(machine.clone(), &[], allowance);
        call.expect(ListingMistake::None, ran(0, DONE), 0);
    }
    for address in [u64::MAX - 62, u64::MAX] {
        machine.settings.memory_address = address;
        refused(&machine, 2);
    }
}

/// Without a word to run, or with none allowed, the switches do not matter,
/// nor whether a word would decode: the call is done.
#[test]
fn nothing_to_run() {
    let mut machine = start();
    for (level, streaming, za_on) in [
        (3, true, true),
        (0, true, true),
        (3, false, true),
        (3, true, false),
        (0, false, false),
    ] {
        machine.settings.level = level;
        (machine.settings.streaming, machine.settings.za_on) = (streaming, za_on);
        for allowance in ALLOWANCES {
            let empty = Call::on(machine.clone(), &[], allowance);
            empty.expect(ListingMistake::None, ran(0, DONE), 0);
        }
        for word in [WORDS[0], UNDECODABLE, MISALIGNED, OUTSIDE] {
            let none_allowed = Call::on(machine.clone(), &listing_of(&[word]), 0);
            none_allowed.expect(ListingMistake::None, ran(0, DONE), 0);
        }
    }
}

/// Answer 9 for every length that is no multiple of 4, whatever the allowance
/// and the words are: nothing moves, not even by whole words before the end.
#[test]
fn odd_lengths() {
    for words in [WORDS.to_vec(), words_with(1, &[UNDECODABLE])] {
        let listing = listing_of(&words);
        for length in 0..listing.len() {
            for allowance in ALLOWANCES {
                let call = Call::on(start(), &listing[..length], allowance);
                if length % 4 == 0 {
                    assert_ne!(call.run(ListingMistake::None).0.answer, 9);
                } else {
                    call.expect_refused(9);
                }
            }
        }
    }
}

/// Answers 3, 4 and 5 of the first word. The switches stand for the whole
/// call, so 4 and 5 never come after a word that is done.
#[test]
fn switches_off() {
    let mut machine = start();
    machine.settings.za_on = false;
    stopped(&machine, &WORDS, plain(5));
    stopped(&machine, &[MISALIGNED, WORDS[0]], plain(5));
    machine.settings.streaming = false;
    stopped(&machine, &WORDS, plain(4));
    stopped(&machine, &[WORDS[0], UNDECODABLE], plain(4));
    stopped(&machine, &[UNDECODABLE, WORDS[0]], plain(3));
    machine.settings.za_on = true;
    stopped(&machine, &WORDS, plain(4));
}

/// Answer 3 by the level: the second of the four words needs level 3.
#[test]
fn words_of_a_higher_level() {
    let mut machine = start();
    for (level, done, answer) in [
        (0, 0, plain(3)),
        (1, 1, plain(3)),
        (2, 1, plain(3)),
        (3, 4, DONE),
    ] {
        machine.settings.level = level;
        let call = Call::on(machine.clone(), &listing_of(&WORDS), u64::MAX);
        call.expect(ListingMistake::None, ran(done, answer), done);
    }
}

/// The lowest number that applies to the call and its first word: from the
/// highest cause down, each new one takes over, and 9 is between 3 and 2.
#[test]
fn the_lowest_number_is_given() {
    let mut machine = start();
    stopped(&machine, &[OUTSIDE, WORDS[0]], FAULT);
    // No multiple of 16, and a row from there on would be outside too.
    machine.x[31] = 60;
    stopped(&machine, &[MISALIGNED, WORDS[0]], plain(6));
    machine.settings.za_on = false;
    stopped(&machine, &[MISALIGNED, WORDS[0]], plain(5));
    machine.settings.streaming = false;
    stopped(&machine, &[MISALIGNED, WORDS[0]], plain(4));
    stopped(&machine, &[UNDECODABLE, WORDS[0]], plain(3));
    let mut odd = listing_of(&[UNDECODABLE, WORDS[0]]);
    odd.pop();
    for (spoil, number) in [
        ((|_| ()) as fn(&mut Machine), 9),
        (|machine| machine.za.truncate(255), 2),
        (|machine| machine.settings.level = 4, 1),
    ] {
        spoil(&mut machine);
        for allowance in ALLOWANCES {
            Call::on(machine.clone(), &odd, allowance).expect_refused(number);
        }
    }
}
