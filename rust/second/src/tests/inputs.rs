//! The lists of test inputs.

use crate::decode::decode;
use crate::encode::encode;
use crate::flat::Flat;
use crate::inputs::rows::ROWS;
use crate::inputs::{fields, words};
use crate::refusal::Refusal;
use std::collections::HashSet;

/// The input lists have no doubles and the lengths that were looked for.
#[test]
fn input_lists_are_unique_and_long_enough() {
    let words = words::list();
    assert!((29_000..=33_000).contains(&words.len()), "{}", words.len());
    assert_eq!(words.iter().collect::<HashSet<_>>().len(), words.len());
    let fields = fields::list();
    assert!(
        (13_500..=16_000).contains(&fields.len()),
        "{}",
        fields.len()
    );
    assert_eq!(fields.iter().collect::<HashSet<_>>().len(), fields.len());
}

/// The neighbours are what their comment says: no word of the table.
#[test]
fn neighbours_decode_at_no_level() {
    for word in words::NEIGHBOURS {
        for level in 0..=3 {
            let answer = decode(word, level);
            assert_eq!(answer, Err(Refusal::Undecodable), "{word:08X}");
        }
    }
}

/// Both lists meet every row often.
#[test]
fn input_lists_meet_every_row() {
    let words = words::list();
    let encoded = fields::list().into_iter().map(Flat::from_bytes);
    let encoded: Vec<u32> = encoded.filter_map(|flat| encode(&flat).ok()).collect();
    for row in &ROWS {
        let of_row = |word: u32| (word ^ row.base) & row.fixed() == 0;
        let decoded = |&&(word, level): &&(u32, u8)| level == 3 && of_row(word);
        assert!(
            words.iter().filter(decoded).count() >= 100,
            "{:08X}",
            row.base
        );
        assert!(encoded.iter().filter(|&&word| of_row(word)).count() >= 100);
    }
}
