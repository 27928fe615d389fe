//! The mistakes about what is checked before the first word of a listing. Each
//! test states what is right by request 5, and what the mistake makes of it:
//! that and nothing more.

use super::listing_mistakes::{allows, bad_states, done, gives, refused, with_odd, NOTHING};
use super::listing_states::{
    listing_of, start, words_with, Call, FAULT, OUTSIDE, UNDECODABLE, WORDS,
};
use super::machine::plain;
use crate::listing::ListingMistake;

/// Answer 2 goes before 9, and 1 before both. Where only one applies, nothing
/// differs.
#[test]
fn nine_before_two() {
    let mistake = ListingMistake::NineBeforeTwo;
    for ((machine, right), mistaken) in bad_states().into_iter().zip([1, 9]) {
        for allowance in [0, 9] {
            let odd = Call::on(machine.clone(), &with_odd(2), allowance);
            gives(mistake, &odd, refused(right), refused(mistaken));
            let whole = Call::on(machine.clone(), &with_odd(0), allowance);
            gives(mistake, &whole, refused(right), refused(right));
        }
    }
    let odd = Call::on(start(), &with_odd(2), 9);
    gives(mistake, &odd, refused(9), refused(9));
}

/// Settings and lengths are checked for an empty listing. With bytes in it,
/// be they odd or not allowed, the mistake checks them too.
#[test]
fn empty_not_checked() {
    let mistake = ListingMistake::EmptyNotChecked;
    for (machine, number) in bad_states() {
        for allowance in [0, 1, u64::MAX] {
            let empty = Call::on(machine.clone(), &[], allowance);
            gives(mistake, &empty, refused(number), NOTHING);
            for odd in [0, 1] {
                let call = Call::on(machine.clone(), &with_odd(odd), allowance);
                gives(mistake, &call, refused(number), refused(number));
            }
        }
    }
}

/// Settings and lengths are checked with an allowance of 0. With another one
/// the mistake checks them too, and the length of the listing always.
#[test]
fn zero_not_checked() {
    let mistake = ListingMistake::ZeroNotChecked;
    for (machine, number) in bad_states() {
        for (listing, mistaken) in [
            (vec![], NOTHING),
            (with_odd(0), NOTHING),
            (with_odd(1), refused(9)),
        ] {
            let zero = Call::on(machine.clone(), &listing, 0);
            gives(mistake, &zero, refused(number), mistaken);
            let one = Call::on(machine.clone(), &listing, 1);
            gives(mistake, &one, refused(number), refused(number));
        }
    }
    allows(mistake, &[(0, done(0), done(0)), (1, done(1), done(1))]);
}

/// Answer 9 goes before the first word, whatever the allowance. The mistake
/// runs the four words, and gives it if it is still allowed another.
#[test]
fn nine_only_where_reached() {
    let mistake = ListingMistake::NineOnlyWhereReached;
    for (allowance, mistaken) in [
        (0, done(0)),
        (2, done(2)),
        (4, done(4)),
        (5, (4, plain(9), 4)),
        (u64::MAX, (4, plain(9), 4)),
    ] {
        let odd = Call::on(start(), &with_odd(3), allowance);
        gives(mistake, &odd, refused(9), mistaken);
    }
    let mut listing = listing_of(&words_with(2, &[OUTSIDE]));
    listing.push(0);
    let stopped = Call::on(start(), &listing, u64::MAX);
    gives(mistake, &stopped, refused(9), (2, FAULT, 2));
    let no_word = Call::on(start(), &with_odd(1)[..1], 1);
    gives(mistake, &no_word, refused(9), refused(9));
    allows(mistake, &[(3, done(3), done(3)), (9, done(4), done(4))]);
}

/// The mistake never gives 9.
#[test]
fn no_nine() {
    let mistake = ListingMistake::NoNine;
    for odd in [1, 2, 3] {
        for (allowance, mistaken) in [(0, done(0)), (2, done(2)), (9, done(4))] {
            let call = Call::on(start(), &with_odd(odd), allowance);
            gives(mistake, &call, refused(9), mistaken);
        }
        let no_word = Call::on(start(), &with_odd(odd)[..odd], 9);
        gives(mistake, &no_word, refused(9), NOTHING);
    }
    allows(mistake, &[(3, done(3), done(3)), (9, done(4), done(4))]);
}

/// Answers 4 and 5 belong to a word: they need one, and come after its 3.
#[test]
fn switches_checked_first() {
    let mistake = ListingMistake::SwitchesCheckedFirst;
    let (mut streaming_off, mut za_off) = (start(), start());
    streaming_off.settings.streaming = false;
    za_off.settings.za_on = false;
    for (machine, number) in [(streaming_off, 4), (za_off, 5)] {
        let of = |words: &[u32], allowance| {
            let listing = listing_of(words);
            Call::on(machine.clone(), &listing, allowance)
        };
        gives(mistake, &of(&[], 9), NOTHING, refused(number));
        gives(mistake, &of(&WORDS, 0), NOTHING, refused(number));
        let undecodable = of(&[UNDECODABLE], 9);
        gives(mistake, &undecodable, refused(3), refused(number));
        gives(mistake, &of(&WORDS, 9), refused(number), refused(number));
        let odd = Call::on(machine.clone(), &with_odd(1), 9);
        gives(mistake, &odd, refused(9), refused(9));
    }
    allows(mistake, &[(0, done(0), done(0)), (9, done(4), done(4))]);
}

/// A word that does not decode stops the run where it stands, and does not
/// matter beyond the allowance.
#[test]
fn undecodable_found_first() {
    let mistake = ListingMistake::UndecodableFoundFirst;
    for (allowance, right, mistaken) in [
        (u64::MAX, (2, plain(3), 2), refused(3)),
        (3, (2, plain(3), 2), refused(3)),
        (2, done(2), done(2)),
    ] {
        let call = Call::new(&words_with(2, &[UNDECODABLE]), allowance);
        gives(mistake, &call, right, mistaken);
    }
    let after_a_fault = Call::new(&[OUTSIDE, UNDECODABLE], 9);
    gives(mistake, &after_a_fault, (0, FAULT, 0), refused(3));
    let first = Call::new(&words_with(0, &[UNDECODABLE]), 9);
    gives(mistake, &first, refused(3), refused(3));
    let fault = Call::new(&words_with(2, &[OUTSIDE]), 9);
    gives(mistake, &fault, (2, FAULT, 2), (2, FAULT, 2));
}

/// Memory beyond 2^64 is answered 2 without a word too, and before 9. With a
/// word the mistake gives 2 as well, and the other lengths it checks.
#[test]
fn memory_end_not_checked() {
    let mistake = ListingMistake::MemoryEndNotChecked;
    let mut beyond = start();
    beyond.settings.memory_address = u64::MAX - 62;
    for (listing, allowance, mistaken) in [
        (vec![], 9, NOTHING),
        (with_odd(0), 0, NOTHING),
        (with_odd(1), 9, refused(9)),
        (with_odd(0), 9, refused(2)),
    ] {
        let call = Call::on(beyond.clone(), &listing, allowance);
        gives(mistake, &call, refused(2), mistaken);
    }
    for (machine, number) in bad_states() {
        let empty = Call::on(machine, &[], 9);
        gives(mistake, &empty, refused(number), refused(number));
    }
    allows(mistake, &[(0, done(0), done(0)), (9, done(4), done(4))]);
}
