//! Listings that are run in one call.

use super::{goal, length, number, verdict, width};
use crate::row::{Record, Row};
use std::fmt::{self, Formatter};

pub fn write(f: &mut Formatter, rows: &[&Row]) -> fmt::Result {
    if rows.is_empty() {
        return Ok(());
    }
    let width = width(rows.iter().copied());
    writeln!(
        f,
        "listings, nanoseconds per word: single is the same words by single calls"
    )?;
    writeln!(
        f,
        "{:<width$} {:>6} {:>9} {:>9} {:>8} {:>5}",
        "operation", "length", "archive", "single", "/single", "goal"
    )?;
    for row in rows {
        let Record { name, archive, .. } = &row.record;
        write!(f, "{name:<width$} {:>6}", length(&row.record))?;
        for time in [Some(*archive), row.room] {
            write!(f, " {:>9}", number(time, 1))?;
        }
        let [.., ratio] = row.ratios();
        let goal = number(goal(row), 2);
        writeln!(f, " {:>8} {goal:>5}{}", number(ratio, 2), verdict(row))?;
    }
    Ok(())
}
