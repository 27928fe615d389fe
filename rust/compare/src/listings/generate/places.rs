//! How many words a listing has, and which of them stops the run.

use second::inputs::random::Random;
use std::ops::Range;

/// The most words that a listing has.
pub const MOST_WORDS: usize = 200;

/// Where a run can stop: each part is counted by itself, as counters of few
/// digits, or loops that take several words at once, may differ there.
pub const PLACES: [(&str, Range<usize>); 4] = [
    ("word 0", 0..1),
    ("1 to 9", 1..10),
    ("10 to 99", 10..100),
    ("100 and more", 100..MOST_WORDS),
];

/// The parts, each as often as its share. Long runs take time, so that the
/// last has no more than it needs.
const SHARES: [usize; 8] = [0, 1, 1, 2, 2, 2, 3, 3];

/// How many words there are, and the place of the one that stops the run.
pub struct Plan {
    pub words: usize,
    pub stop: Option<usize>,
}

impl Plan {
    /// A plan with such a word or without. With it some words follow, or none.
    pub fn draw(random: &mut Random, stops: bool) -> Plan {
        let (_, places) = PLACES[random.pick(&SHARES)].clone();
        if !stops {
            // The most words are a number too, though no place of a word.
            let most = usize::from(places.end == MOST_WORDS);
            return Plan {
                words: places.start + random.below(places.len() + most),
                stop: None,
            };
        }
        let place = places.start + random.below(places.len());
        let most = MOST_WORDS - place - 1;
        let after = match random.below(3) {
            0 => 0,
            1 => most.min(1 + random.below(3)),
            _ => random.below(most + 1),
        };
        Plan {
            words: place + 1 + after,
            stop: Some(place),
        }
    }
}

/// The number of the part that has this place.
pub fn part(place: u64) -> usize {
    let before = |(_, places): &(&str, Range<usize>)| places.start as u64 <= place;
    PLACES.iter().rposition(before).unwrap_or_default()
}
