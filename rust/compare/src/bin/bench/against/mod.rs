//! A run beside an earlier one: each row's time then and now, and what the
//! ratios come to.

mod print;
#[cfg(test)]
mod tests;

use crate::row::{Record, Row};
use std::collections::HashMap;

/// Ratios this near to 1 are the same: no two runs give the same times.
const SAME: f64 = 0.05;

/// The rows of two runs.
pub struct Comparison<'a> {
    both: Vec<Both<'a>>,
    /// Rows of the present run that the earlier one lacks.
    only_now: Vec<&'a Record>,
    /// Rows of the earlier run that the present one lacks.
    only_then: Vec<&'a Record>,
}

/// A row that both runs have.
struct Both<'a> {
    now: &'a Row,
    then: &'a Record,
}

/// How a row's time has changed.
#[derive(Clone, Copy, Debug, PartialEq, Eq)]
enum Change {
    Faster,
    Slower,
    Same,
}

impl Change {
    fn of(ratio: f64) -> Change {
        if ratio < 1.0 - SAME {
            Change::Faster
        } else if ratio > 1.0 + SAME {
            Change::Slower
        } else {
            Change::Same
        }
    }
}

impl Both<'_> {
    /// The present time over the earlier one.
    fn ratio(&self) -> f64 {
        self.now.record.archive / self.then.archive
    }

    fn change(&self) -> Change {
        Change::of(self.ratio())
    }
}

impl<'a> Comparison<'a> {
    /// Of the rows that only the earlier run has, those count that the
    /// present one was to have.
    pub fn new(
        rows: &'a [Row],
        earlier: &'a [Record],
        wanted: impl Fn(&str) -> bool,
    ) -> Comparison<'a> {
        let by_key = |record: &'a Record| (record.key(), record);
        let mut left: HashMap<_, _> = earlier.iter().map(by_key).collect();
        let (mut both, mut only_now) = (Vec::new(), Vec::new());
        for now in rows {
            match left.remove(&now.record.key()) {
                Some(then) => both.push(Both { now, then }),
                None => only_now.push(&now.record),
            }
        }
        let lacking = |record: &&Record| left.contains_key(&record.key()) && wanted(&record.name);
        Comparison {
            both,
            only_now,
            only_then: earlier.iter().filter(lacking).collect(),
        }
    }

    /// How many rows have changed so.
    fn count(&self, change: Change) -> usize {
        let so = self.both.iter().filter(|both| both.change() == change);
        so.count()
    }

    /// Each kind with its number of rows and the mean of their ratios, in the
    /// order in which the kinds come.
    fn kinds(&self) -> Vec<(&str, usize, f64)> {
        let mut kinds: Vec<(&str, Vec<f64>)> = Vec::new();
        for both in &self.both {
            let kind = both.now.kind.as_str();
            match kinds.iter_mut().find(|(own, _)| *own == kind) {
                Some((_, ratios)) => ratios.push(both.ratio()),
                None => kinds.push((kind, vec![both.ratio()])),
            }
        }
        let summed = |(kind, ratios): (_, Vec<f64>)| {
            let mean = geometric_mean(ratios.iter().copied());
            mean.map(|mean| (kind, ratios.len(), mean))
        };
        kinds.into_iter().filter_map(summed).collect()
    }

    /// The mean ratio of all rows.
    fn mean(&self) -> Option<f64> {
        geometric_mean(self.both.iter().map(Both::ratio))
    }

    /// The mean ratio of another contestant, which does not go through the
    /// archive, over the rows where both runs have it.
    fn mean_of(&self, time: fn(&Record) -> Option<f64>) -> Option<f64> {
        let ratio = |both: &Both| {
            let (now, then) = time(&both.now.record).zip(time(both.then))?;
            Some(now / then)
        };
        geometric_mean(self.both.iter().filter_map(ratio))
    }
}

/// The mean for ratios: of 2 and 1/2 it is 1. There is none of none.
fn geometric_mean(ratios: impl Iterator<Item = f64>) -> Option<f64> {
    let (sum, count) = ratios.fold((0.0, 0), |(sum, count), ratio| {
        (sum + ratio.ln(), count + 1)
    });
    (count > 0).then(|| (sum / f64::from(count)).exp())
}
