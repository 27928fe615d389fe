//! The rows of the table of words, and those of them that a run draws from.

use crate::names::{is_access, Named};
use second::inputs::rows::{Row, ROWS};
use std::fmt::{self, Display, Formatter};
use std::ops::Range;

/// The rows, in the order of the table.
pub static TABLE: [Row; ROWS.len()] = ROWS;
/// How many rows document 01 has; those of request 1 follow, and then those
/// of request 2.
pub const OF_DOCUMENT: usize = 13;
/// The place of the first row of request 2.
const OF_REQUEST_2: usize = 20;
/// Stands for the words that fit no row.
pub const NO_ENCODING: usize = ROWS.len();

/// Which rows the words of a run are drawn from.
#[derive(Clone, Copy, Debug, PartialEq, Eq)]
pub enum Drawn {
    All,
    /// Those that request 1 added.
    Request1,
    /// Those that request 2 added.
    Request2,
}

impl Drawn {
    /// Those that the request of this number added, if there is one.
    pub fn of_request(number: u64) -> Option<Drawn> {
        match number {
            1 => Some(Drawn::Request1),
            2 => Some(Drawn::Request2),
            _ => None,
        }
    }

    /// The places of the rows.
    pub fn rows(self) -> Range<usize> {
        match self {
            Drawn::All => 0..NO_ENCODING,
            Drawn::Request1 => OF_DOCUMENT..OF_REQUEST_2,
            Drawn::Request2 => OF_REQUEST_2..NO_ENCODING,
        }
    }

    /// Whether words of this row occur. Words that fit none always do, as
    /// drawn words are spoiled.
    pub fn has(self, row: usize) -> bool {
        row == NO_ENCODING || self.rows().contains(&row)
    }

    /// Whether a row like this is drawn.
    pub fn has_row(self, wanted: impl Fn(&Row) -> bool) -> bool {
        TABLE[self.rows()].iter().any(wanted)
    }

    /// Whether loads or stores are drawn.
    pub fn has_access(self) -> bool {
        self.has_row(|row| is_access(row.kind()))
    }
}

impl Display for Drawn {
    fn fmt(&self, f: &mut Formatter) -> fmt::Result {
        match self {
            Drawn::All => write!(f, "all words"),
            Drawn::Request1 => write!(f, "words of request 1"),
            Drawn::Request2 => write!(f, "words of request 2"),
        }
    }
}

/// The row that the word belongs to, whatever the level.
pub fn encoding(word: u32) -> Option<usize> {
    let fits = |row: &Row| (word ^ row.base) & row.fixed() == 0;
    TABLE.iter().position(fits)
}
