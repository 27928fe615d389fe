//! The table as it is printed.

mod listings;
mod predicates;
#[cfg(test)]
mod tests;

use crate::pair::Pair;
use crate::row::{Goal, Part, Record, Row};
use crate::timing::Effort;
use std::fmt::{self, Display, Formatter};

/// All rows of a run.
pub struct Table<'a> {
    pub rows: &'a [Row],
    /// Rows that have a goal between them.
    pub pairs: &'a [Pair],
    pub effort: Effort,
}

impl Display for Table<'_> {
    fn fmt(&self, f: &mut Formatter) -> fmt::Result {
        let Effort {
            rounds, batches, ..
        } = self.effort;
        writeln!(
            f,
            "nanoseconds per call, least of {rounds} rounds of {batches} batches"
        )?;
        write_words(f, &self.part(Part::Words))?;
        predicates::write(f, &self.part(Part::Predicates))?;
        self.write_pairs(f, Part::Predicates)?;
        write_long(f, &self.part(Part::LongBuffers))?;
        listings::write(f, &self.part(Part::Listings))?;
        self.write_pairs(f, Part::Listings)?;
        write_tiles(f, &self.part(Part::Tiles))?;
        let [met, missed] = [true, false].map(|met| self.goals(met));
        writeln!(f, "{met} goals met, {missed} missed")
    }
}

impl Table<'_> {
    /// The rows that stand there.
    fn part(&self, part: Part) -> Vec<&Row> {
        self.rows.iter().filter(|row| row.part == part).collect()
    }

    /// A line for each pair there of which both rows were timed.
    fn write_pairs(&self, f: &mut Formatter, part: Part) -> fmt::Result {
        for pair in self.pairs.iter().filter(|pair| pair.part == part) {
            if let Some(ratio) = pair.ratio(self.rows) {
                let verdict = missed(pair.meets_goal(self.rows));
                let (name, most) = (&pair.name, pair.most);
                writeln!(f, "{name}: {ratio:.2} (goal {most:.1}){verdict}")?;
            }
        }
        Ok(())
    }

    /// How many goals are met, or missed.
    fn goals(&self, met: bool) -> usize {
        let of_rows = self.rows.iter().map(Row::meets_goal);
        let of_pairs = self.pairs.iter().map(|pair| pair.meets_goal(self.rows));
        let meets = of_rows.chain(of_pairs);
        meets.filter(|&own| own == Some(met)).count()
    }
}

/// The executions of words.
fn write_words(f: &mut Formatter, rows: &[&Row]) -> fmt::Result {
    if rows.is_empty() {
        return Ok(());
    }
    let width = width(rows.iter().copied());
    writeln!(
        f,
        "{:<width$} {:>6} {:>9} {:>9} {:>9} {:>9} {:>8} {:>8} {:>8} {:>5}",
        "operation",
        "length",
        "archive",
        "second",
        "copy",
        "strided",
        "/copy",
        "/strided",
        "/room",
        "goal"
    )?;
    for row in rows {
        let Record { name, archive, .. } = &row.record;
        write!(f, "{name:<width$} {:>6}", length(&row.record))?;
        for time in [
            Some(*archive),
            row.second,
            row.record.copy,
            row.record.strided,
        ] {
            write!(f, " {:>9}", number(time, 1))?;
        }
        for ratio in row.ratios() {
            write!(f, " {:>8}", number(ratio, 2))?;
        }
        writeln!(f, " {:>5}{}", number(goal(row), 1), verdict(row))?;
    }
    Ok(())
}

/// The executions in buffers for longer vectors.
fn write_long(f: &mut Formatter, rows: &[&Row]) -> fmt::Result {
    if rows.is_empty() {
        return Ok(());
    }
    let width = width(rows.iter().copied());
    writeln!(
        f,
        "long buffers: close is the same call in buffers for its own vectors"
    )?;
    writeln!(
        f,
        "{:<width$} {:>6} {:>9} {:>9} {:>9} {:>8}",
        "operation", "length", "archive", "second", "close", "/close"
    )?;
    for row in rows {
        let Record { name, archive, .. } = &row.record;
        write!(f, "{name:<width$} {:>6}", length(&row.record))?;
        for time in [Some(*archive), row.second, row.room] {
            write!(f, " {:>9}", number(time, 1))?;
        }
        let [.., ratio] = row.ratios();
        writeln!(f, " {:>8}", number(ratio, 2))?;
    }
    Ok(())
}

/// Taking tiles and giving them up.
fn write_tiles(f: &mut Formatter, rows: &[&Row]) -> fmt::Result {
    if rows.is_empty() {
        return Ok(());
    }
    let width = width(rows.iter().copied());
    writeln!(
        f,
        "tiles: putting the held ones back (copy) is in the other times"
    )?;
    writeln!(
        f,
        "{:<width$} {:>9} {:>9} {:>9} {:>8}",
        "operation", "archive", "second", "copy", "goal"
    )?;
    for row in rows {
        let Record { name, archive, .. } = &row.record;
        write!(f, "{name:<width$}")?;
        for time in [Some(*archive), row.second, row.record.copy] {
            write!(f, " {:>9}", number(time, 1))?;
        }
        writeln!(f, " {:>8}{}", number(goal(row), 1), verdict(row))?;
    }
    Ok(())
}

/// As wide as the longest name.
pub fn width<'a>(rows: impl Iterator<Item = &'a Row>) -> usize {
    let names = rows.map(|row| row.record.name.len());
    names.max().unwrap_or_default().max("operation".len())
}

/// The vector length, or a dash where there is none.
pub fn length(record: &Record) -> String {
    let length = record.vector_bytes.map(|bytes| bytes.to_string());
    length.unwrap_or("-".to_string())
}

fn goal(row: &Row) -> Option<f64> {
    row.goal.map(|goal| match goal {
        Goal::Copies(most) | Goal::Loops(most) | Goal::Beside(most) | Goal::Nanoseconds(most) => {
            most
        }
    })
}

fn verdict(row: &Row) -> &'static str {
    missed(row.meets_goal())
}

/// What stands behind a goal, which is met or not, if there is one.
fn missed(met: Option<bool>) -> &'static str {
    if met == Some(false) {
        "  missed"
    } else {
        ""
    }
}

/// A number to so many places, or a dash where there is none.
fn number(value: Option<f64>, places: usize) -> String {
    value.map_or("-".to_string(), |value| format!("{value:.places$}"))
}
