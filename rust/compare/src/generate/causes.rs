//! Which causes of refusal a case is to have.

use crate::rows::Drawn;
use second::inputs::random::Random;
use sme_move::Refusal;

/// How many of a hundred cases are aimed at each answer. More than half are
/// to be done, as only those move anything. With the stack check off a case
/// that is aimed at 6 has the same state, and is done or gets 7.
const SHARES: [usize; 8] = [58, 8, 6, 8, 4, 4, 4, 8];

/// The lowest answer that only loads and stores are given.
const ACCESSES_ONLY: usize = Refusal::StackMisaligned.number() as usize;

/// The causes by their numbers; no cause is no refusal.
pub struct Causes {
    present: [bool; 8],
}

impl Causes {
    /// Draws the answer to aim at, which words of the rows can be given. A
    /// refusal often gets causes of higher numbers too, which must not show
    /// (document 01, section 6: the lowest number that applies is given).
    pub fn draw(random: &mut Random, drawn: Drawn) -> Causes {
        let lowest = if drawn.has_access() {
            answer(random, &SHARES)
        } else {
            answer(random, &SHARES[..ACCESSES_ONLY])
        };
        let mut present = [false; 8];
        if lowest > 0 {
            for own in &mut present[lowest + 1..] {
                *own = random.chance(1, 4);
            }
            present[lowest] = true;
        }
        Causes { present }
    }

    pub fn has(&self, refusal: Refusal) -> bool {
        self.present[refusal.number() as usize]
    }

    /// Whether the lowest cause is one that only loads and stores have.
    pub fn needs_access(&self) -> bool {
        let lowest = self.present.iter().position(|own| *own);
        lowest.is_some_and(|number| number >= ACCESSES_ONLY)
    }
}

/// One of the answers, by its share.
fn answer(random: &mut Random, shares: &[usize]) -> usize {
    let mut drawn = random.below(shares.iter().sum());
    let mut answer = 0;
    while drawn >= shares[answer] {
        drawn -= shares[answer];
        answer += 1;
    }
    answer
}
