//! The pairs of a vector length and a largest one that settings may have.

use second::execute::{Settings, VECTOR_LENGTHS};
use second::inputs::random::Random;
use std::fmt::{self, Display, Formatter};

/// A vector length and the one that buffers are laid out for, not below it.
#[derive(Clone, Copy, Debug, PartialEq, Eq)]
pub struct Pair {
    pub vector_bytes: u64,
    pub largest: u64,
}

const LENGTHS: usize = VECTOR_LENGTHS.len();

/// Every pair, by vector length.
pub const PAIRS: [Pair; LENGTHS * (LENGTHS + 1) / 2] = all();

const fn all() -> [Pair; LENGTHS * (LENGTHS + 1) / 2] {
    let mut pairs = [Pair {
        vector_bytes: 0,
        largest: 0,
    }; LENGTHS * (LENGTHS + 1) / 2];
    let (mut length, mut place) = (0, 0);
    while length < LENGTHS {
        let mut largest = length;
        while largest < LENGTHS {
            pairs[place] = Pair {
                vector_bytes: VECTOR_LENGTHS[length],
                largest: VECTOR_LENGTHS[largest],
            };
            largest += 1;
            place += 1;
        }
        length += 1;
    }
    pairs
}

impl Pair {
    /// One of them: in half of all cases buffers are for the vector length
    /// itself, as with most hosts. In each half every pair has the same share.
    pub fn draw(random: &mut Random) -> Pair {
        let long = random.chance(1, 2);
        loop {
            let pair = random.pick(&PAIRS);
            if pair.is_long() == long {
                return pair;
            }
        }
    }

    /// The number of the pair that settings have, if they have one.
    pub fn number(settings: &Settings) -> Option<usize> {
        let own = Pair {
            vector_bytes: settings.vector_bytes,
            largest: settings.largest_vector_bytes,
        };
        PAIRS.iter().position(|pair| *pair == own)
    }

    /// Whether buffers are for longer vectors.
    pub fn is_long(self) -> bool {
        self.vector_bytes < self.largest
    }
}

impl Display for Pair {
    fn fmt(&self, f: &mut Formatter) -> fmt::Result {
        let Pair {
            vector_bytes,
            largest,
        } = self;
        write!(f, "vector length {vector_bytes} in buffers for {largest}")
    }
}
