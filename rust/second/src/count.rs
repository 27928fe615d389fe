//! Counting the words that decode, by trying every one of them.

use crate::decode::decode;
use std::hint::black_box;
use std::thread;

/// One past the last word.
const WORDS: u64 = 1 << 32;

/// How many of all 2^32 words decode at `level`; two threads, half each.
pub fn count(level: u8) -> u64 {
    thread::scope(|scope| {
        let lower = scope.spawn(|| count_between(0, WORDS / 2, level));
        let upper = count_between(WORDS / 2, WORDS, level);
        upper + lower.join().expect("the counting thread does not panic")
    })
}

/// Counts from `first` up to, not with, `end`. The black boxes keep the
/// compiler from settling whole ranges of words without calling decode.
pub fn count_between(first: u64, end: u64, level: u8) -> u64 {
    let mut found = 0;
    for number in first..end {
        let answer = decode(black_box(number as u32), level);
        black_box(&answer);
        if answer.is_ok() {
            found += 1;
        }
    }
    found
}
