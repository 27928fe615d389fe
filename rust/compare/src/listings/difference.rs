//! The first difference, told in full.

use super::compared::Differing;
use super::listing::Listing;
use crate::difference as of_words;
use std::fmt::{self, Display, Formatter};

/// How many words of a listing stand in a line.
const IN_A_LINE: usize = 8;

/// A listing on which two ends differ that must not.
pub struct Difference {
    /// The state and what was left of it.
    state: of_words::Difference,
    words: Vec<u32>,
    odd: usize,
    allowance: u64,
    /// The words done, on both sides.
    done: [u64; 2],
}

impl Difference {
    /// Of the listing of this number, the first being 1.
    pub fn new(number: u64, listing: Listing, differing: Differing) -> Difference {
        let Differing {
            sides,
            wanted,
            found,
        } = differing;
        Difference {
            words: listing.words().collect(),
            odd: listing.odd(),
            allowance: listing.allowance,
            done: [wanted.done, found.done],
            state: of_words::Difference {
                number,
                sides,
                case: listing.case,
                wanted: wanted.outcome,
                found: found.outcome,
            },
        }
    }

    fn write_listing(&self, f: &mut Formatter) -> fmt::Result {
        let (words, odd) = (self.words.len(), self.odd);
        let allowance = self.allowance;
        writeln!(
            f,
            "listing: {words} words and {odd} bytes, allowance {allowance} (0x{allowance:X})"
        )?;
        for (line, words) in self.words.chunks(IN_A_LINE).enumerate() {
            write!(f, "{:>3}", line * IN_A_LINE)?;
            for word in words {
                write!(f, " {word:08X}")?;
            }
            writeln!(f)?;
        }
        Ok(())
    }
}

impl Display for Difference {
    fn fmt(&self, f: &mut Formatter) -> fmt::Result {
        self.state.write_head(f, "listing")?;
        self.write_listing(f)?;
        self.state.write_answers(f)?;
        let [one, other] = self.state.sides.names;
        let [wanted, found] = self.done;
        writeln!(f, "words done: {one} {wanted}, {other} {found}")?;
        self.state.write_state(f)
    }
}
