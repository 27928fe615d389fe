//! The mistakes about listings, but for those about what is checked before the
//! first word. Each test states what is right by request 5, and what the
//! mistake makes of it: that and nothing more.

use super::listing_states::{
    listing_of, ran, random_call, start, words_with, Call, FAULT, OUTSIDE, UNDECODABLE, WORDS,
};
use super::machine::{plain, Answer, Machine, DONE};
use crate::inputs::random::Random;
use crate::listing::ListingMistake;

/// How many words are counted, the answer, and how many of the four words
/// have their effect.
pub type Outcome = (u64, Answer, u64);

/// Nothing was done or moved, and the answer is 0.
pub const NOTHING: Outcome = (0, DONE, 0);

/// The call is refused with that number, with nothing done and nothing moved.
pub const fn refused(number: u32) -> Outcome {
    (0, plain(number), 0)
}

/// That many of the four words are done, and the answer is 0.
pub const fn done(words: u64) -> Outcome {
    (words, DONE, words)
}

/// The call is right, and mistaken, as it says.
pub fn gives(mistake: ListingMistake, call: &Call, right: Outcome, mistaken: Outcome) {
    for (mistake, outcome) in [(ListingMistake::None, right), (mistake, mistaken)] {
        let (done, answer, effects) = outcome;
        call.expect(mistake, ran(done, answer), effects);
    }
}

/// The four words are right, and mistaken, as it says for each allowance.
pub fn allows(mistake: ListingMistake, cases: &[(u64, Outcome, Outcome)]) {
    for &(allowance, right, mistaken) in cases {
        gives(mistake, &Call::new(&WORDS, allowance), right, mistaken);
    }
}

/// The four words and `odd` bytes of a fifth.
pub fn with_odd(odd: usize) -> Vec<u8> {
    let listing = listing_of(&[&WORDS[..], &WORDS[..1]].concat());
    listing[..16 + odd].to_vec()
}

/// States with bad settings, and with a bad length: their numbers are 1 and 2.
pub fn bad_states() -> [(Machine, u32); 2] {
    let (mut settings, mut lengths) = (start(), start());
    settings.settings.level = 4;
    lengths.za.pop();
    [(settings, 1), (lengths, 2)]
}

/// The four words with their bytes turned round are undecodable, and that is
/// what the mistake finds the words themselves to be.
#[test]
fn highest_byte_first() {
    let mistake = ListingMistake::HighestByteFirst;
    let turned = WORDS.map(u32::swap_bytes);
    gives(mistake, &Call::new(&WORDS, 9), done(4), refused(3));
    gives(mistake, &Call::new(&turned, 9), refused(3), done(4));
    gives(mistake, &Call::new(&WORDS, 0), NOTHING, NOTHING);
    let odd = Call::on(start(), &with_odd(1), 9);
    gives(mistake, &odd, refused(9), refused(9));
}

/// The refused word does not count; only with a word that is refused does it
/// show.
#[test]
fn stopping_word_counted() {
    let mistake = ListingMistake::StoppingWordCounted;
    let call = Call::new(&words_with(2, &[UNDECODABLE]), 9);
    gives(mistake, &call, (2, plain(3), 2), (3, plain(3), 2));
    let first = Call::new(&[OUTSIDE], 1);
    gives(mistake, &first, (0, FAULT, 0), (1, FAULT, 0));
    allows(
        mistake,
        &[(2, done(2), done(2)), (u64::MAX, done(4), done(4))],
    );
    for (machine, number) in bad_states() {
        let call = Call::on(machine, &listing_of(&WORDS), 9);
        gives(mistake, &call, refused(number), refused(number));
    }
    let odd = Call::on(start(), &with_odd(1), 9);
    gives(mistake, &odd, refused(9), refused(9));
}

/// At the end of the listing there is no word more.
#[test]
fn allowance_one_more() {
    let mistake = ListingMistake::AllowanceOneMore;
    allows(
        mistake,
        &[
            (0, done(0), done(1)),
            (2, done(2), done(3)),
            (3, done(3), done(4)),
            (4, done(4), done(4)),
            (u64::MAX, done(4), done(4)),
        ],
    );
    let call = Call::new(&words_with(2, &[UNDECODABLE]), 2);
    gives(mistake, &call, done(2), (2, plain(3), 2));
}

/// An allowance of 0 stays 0.
#[test]
fn allowance_one_less() {
    let mistake = ListingMistake::AllowanceOneLess;
    allows(
        mistake,
        &[
            (0, done(0), done(0)),
            (1, done(1), done(0)),
            (4, done(4), done(3)),
            (5, done(4), done(4)),
            (u64::MAX, done(4), done(4)),
        ],
    );
    let call = Call::new(&words_with(2, &[UNDECODABLE]), 3);
    gives(mistake, &call, (2, plain(3), 2), done(2));
}

/// Allowances below 2^32 are what they are, and so is the highest of all to a
/// listing as short as these.
#[test]
fn allowance_in_32_bits() {
    allows(
        ListingMistake::AllowanceIn32Bits,
        &[
            (1 << 32, done(4), done(0)),
            ((1 << 32) + 3, done(4), done(3)),
            (1 << 63, done(4), done(0)),
            ((1 << 32) - 1, done(4), done(4)),
            (3, done(3), done(3)),
            (u64::MAX, done(4), done(4)),
        ],
    );
}

/// The words after a refused one are not run. To the mistake the refused ones
/// are words of the allowance.
#[test]
fn goes_on_after_refusal() {
    let mistake = ListingMistake::GoesOnAfterRefusal;
    let words = words_with(1, &[UNDECODABLE, OUTSIDE]);
    for (allowance, right, mistaken) in [
        (u64::MAX, (1, plain(3), 1), (4, plain(3), 4)),
        (4, (1, plain(3), 1), (2, plain(3), 2)),
        (2, (1, plain(3), 1), (1, plain(3), 1)),
        (1, done(1), done(1)),
    ] {
        gives(mistake, &Call::new(&words, allowance), right, mistaken);
    }
    let turned = Call::new(&words_with(0, &[OUTSIDE, UNDECODABLE]), 9);
    gives(mistake, &turned, (0, FAULT, 0), (4, FAULT, 4));
    let at_the_end = Call::new(&words_with(4, &[OUTSIDE]), 9);
    gives(mistake, &at_the_end, (4, FAULT, 4), (4, FAULT, 4));
}

/// Words that were done keep their effect. Without a refusal they do with the
/// mistake too.
#[test]
fn later_words_undone() {
    let mistake = ListingMistake::LaterWordsUndone;
    for place in 0..=4 {
        let call = Call::new(&words_with(place, &[OUTSIDE]), 9);
        let done = place as u64;
        gives(mistake, &call, (done, FAULT, done), (done, FAULT, 0));
    }
    allows(mistake, &[(3, done(3), done(3)), (9, done(4), done(4))]);
}

/// The count ends at the refused word, and not at the allowance or the end.
#[test]
fn count_is_of_words() {
    let mistake = ListingMistake::CountIsOfWords;
    let words = words_with(2, &[UNDECODABLE]);
    for (allowance, right, mistaken) in [
        (u64::MAX, (2, plain(3), 2), (5, plain(3), 2)),
        (4, (2, plain(3), 2), (4, plain(3), 2)),
        (2, done(2), done(2)),
    ] {
        gives(mistake, &Call::new(&words, allowance), right, mistaken);
    }
    let odd = Call::on(start(), &with_odd(1), 9);
    gives(mistake, &odd, refused(9), refused(9));
}

/// Answer 7 carries its address and element for a later word too.
#[test]
fn fault_forgotten() {
    let mistake = ListingMistake::FaultForgotten;
    for place in 1..=4 {
        let call = Call::new(&words_with(place, &[OUTSIDE]), 9);
        let done = place as u64;
        gives(mistake, &call, (done, FAULT, done), (done, plain(7), done));
    }
    let first = Call::new(&words_with(0, &[OUTSIDE]), 9);
    gives(mistake, &first, (0, FAULT, 0), (0, FAULT, 0));
    let other = Call::new(&words_with(2, &[UNDECODABLE]), 9);
    gives(mistake, &other, (2, plain(3), 2), (2, plain(3), 2));
}

/// Calls at random show each of all the mistakes.
#[test]
fn each_shows_at_random() {
    let mut random = Random::new(51);
    let mut shown = ListingMistake::NAMED.map(|_| 0);
    for _ in 0..3000 {
        let call = random_call(&mut random);
        let right = call.run(ListingMistake::None);
        for (shown, (_, mistake)) in shown.iter_mut().zip(ListingMistake::NAMED) {
            *shown += usize::from(call.run(mistake) != right);
        }
    }
    for (shown, (name, _)) in shown.iter().zip(ListingMistake::NAMED) {
        assert!(*shown > 0, "{name}");
    }
}

/// The names lead back to the mistakes.
#[test]
fn listing_mistakes_have_names() {
    for (name, mistake) in ListingMistake::NAMED {
        assert_eq!(ListingMistake::named(name), Some(mistake));
        assert_eq!(format!("{mistake:?}"), name);
    }
    assert_eq!(ListingMistake::named("None"), None);
}
