//! Which ways rows were moved under a predicate. A unit may take eight bytes
//! of it together, or one, where the bits that elements go by are all set, all
//! clear, or mixed in each byte; a run must lead it to each of these ways with
//! each encoding.

pub mod bits;
mod taken;
#[cfg(test)]
mod tests;

use crate::columns::write_line;
use crate::names::{self, is_predicated, Named};
use crate::rows::{encoding, Drawn, TABLE};
use crate::table::NAMES;
use crate::view::View;
use sme_move::Direction;
use std::fmt::{self, Display, Formatter};
use taken::{taken, Taken, PATHS};

/// Counts of the cases that were done on a horizontal slice under a predicate,
/// by encoding.
pub struct Paths {
    drawn: Drawn,
    counts: [Taken; TABLE.len()],
}

impl Paths {
    /// No cases yet, to be drawn from these rows.
    pub fn new(drawn: Drawn) -> Paths {
        Paths {
            drawn,
            counts: [[0; PATHS.len()]; TABLE.len()],
        }
    }

    /// Counts one case.
    pub fn add(&mut self, view: &View) {
        let (Some(operation), Some(row)) = (view.operation, encoding(view.case.word)) else {
            return;
        };
        if !view.done() || !view.predicated() {
            return;
        }
        if names::direction(&operation) == Direction::Horizontal {
            let m = usize::from(operation.element_bytes);
            add(&mut self.counts[row], &taken(view.predicate(), m));
        }
    }

    /// Takes the counts of other cases in.
    pub fn merge(&mut self, other: &Paths) {
        for (own, other) in self.counts.iter_mut().zip(&other.counts) {
            add(own, other);
        }
    }

    /// What can occur and did not.
    pub fn missing(&self) -> Vec<String> {
        let mut missing = Vec::new();
        for line in self.lines() {
            for ((path, what), count) in PATHS.into_iter().zip(line.counts) {
                if path.can_occur(line.m) && *count == 0 {
                    missing.push(format!("never: done, {}, horizontal, {what}", line.name));
                }
            }
        }
        missing
    }

    /// A line for each encoding that is drawn from and has a predicate.
    fn lines(&self) -> impl Iterator<Item = Line<'_>> {
        let rows = self.drawn.rows();
        let rows = rows.filter(|&row| is_predicated(TABLE[row].kind()));
        rows.map(|row| Line {
            name: NAMES[row],
            m: usize::from(TABLE[row].element_bytes),
            counts: &self.counts[row],
        })
    }
}

fn add(own: &mut Taken, other: &Taken) {
    for (own, other) in own.iter_mut().zip(other) {
        *own += other;
    }
}

/// The counts of one encoding, whose elements have m bytes.
struct Line<'a> {
    name: &'static str,
    m: usize,
    counts: &'a Taken,
}

impl Line<'_> {
    /// Counts, or a dash where nothing can be.
    fn told(&self) -> [String; PATHS.len()] {
        let mut told = self.counts.map(|count| count.to_string());
        for ((path, _), own) in PATHS.into_iter().zip(&mut told) {
            if own == "0" && !path.can_occur(self.m) {
                *own = "-".to_string();
            }
        }
        told
    }
}

/// What is above the columns, in the order of the paths.
const COLUMNS: [&str; PATHS.len()] = [
    "set", "clear", "set", "clear", "mixed", "others", "ones", "zeros", "mixed",
];

impl Display for Paths {
    fn fmt(&self, f: &mut Formatter) -> fmt::Result {
        writeln!(
            f,
            "{:<24} {:>17} {:>35} {:>26}",
            "horizontal slices, done", "predicates", "blocks of eight bytes", "other bytes"
        )?;
        write_line(f, "", &COLUMNS)?;
        for line in self.lines() {
            write_line(f, line.name, &line.told())?;
        }
        Ok(())
    }
}
