//! The rows by predicate.

use super::{length, number, verdict, width};
use crate::row::{Goal, Record, Row};
use std::fmt::{self, Formatter};

/// A goal stands behind the ratio that it is for.
pub fn write(f: &mut Formatter, rows: &[&Row]) -> fmt::Result {
    if rows.is_empty() {
        return Ok(());
    }
    let width = width(rows.iter().copied());
    writeln!(
        f,
        "rows by predicate: all is the same call with all elements active"
    )?;
    writeln!(
        f,
        "{:<width$} {:>6} {:>9} {:>9} {:>9} {:>8} {:>5} {:>8} {:>5}",
        "operation", "length", "archive", "second", "copy", "/copy", "goal", "/all", "goal"
    )?;
    for row in rows {
        let Record { name, archive, .. } = &row.record;
        write!(f, "{name:<width$} {:>6}", length(&row.record))?;
        for time in [Some(*archive), row.second, row.record.copy] {
            write!(f, " {:>9}", number(time, 1))?;
        }
        let [copies, _, all] = row.ratios();
        let [goal_of_copies, goal_of_all] = goals(row);
        for (ratio, goal) in [(copies, goal_of_copies), (all, goal_of_all)] {
            write!(f, " {:>8} {:>5}", number(ratio, 2), number(goal, 1))?;
        }
        writeln!(f, "{}", verdict(row))?;
    }
    Ok(())
}

/// The goals for the ratio to the copy, and to the row with all elements
/// active.
fn goals(row: &Row) -> [Option<f64>; 2] {
    match row.goal {
        Some(Goal::Copies(most)) => [Some(most), None],
        Some(Goal::Beside(most)) => [None, Some(most)],
        _ => [None, None],
    }
}
