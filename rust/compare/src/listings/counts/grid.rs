//! A small table of counts.

use std::fmt::{self, Display, Formatter};

/// Counts by line and column, each with its name. Of those that can occur none
/// may be empty.
#[derive(Debug, PartialEq, Eq)]
pub struct Grid {
    name: &'static str,
    lines: Vec<String>,
    columns: Vec<&'static str>,
    counts: Vec<Vec<u64>>,
    /// Whether a cell can occur.
    possible: Vec<Vec<bool>>,
}

impl Grid {
    /// No counts yet; every cell can occur.
    pub fn new(
        name: &'static str,
        lines: impl IntoIterator<Item = impl ToString>,
        columns: &[&'static str],
    ) -> Grid {
        let lines: Vec<String> = lines.into_iter().map(|own| own.to_string()).collect();
        Grid {
            name,
            counts: vec![vec![0; columns.len()]; lines.len()],
            possible: vec![vec![true; columns.len()]; lines.len()],
            lines,
            columns: columns.to_vec(),
        }
    }

    /// The same, but that only the cells can occur that are told by line and
    /// column.
    pub fn only(mut self, can_occur: impl Fn(usize, usize) -> bool) -> Grid {
        for (line, cells) in self.possible.iter_mut().enumerate() {
            for (column, possible) in cells.iter_mut().enumerate() {
                *possible = can_occur(line, column);
            }
        }
        self
    }

    pub fn add(&mut self, line: usize, column: usize, count: u64) {
        self.counts[line][column] += count;
    }

    pub fn merge(&mut self, other: &Grid) {
        let cells = self.counts.iter_mut().flatten();
        for (own, other) in cells.zip(other.counts.iter().flatten()) {
            *own += other;
        }
    }

    /// The sum of a column.
    pub fn total(&self, column: usize) -> u64 {
        self.counts.iter().map(|line| line[column]).sum()
    }

    /// The cells that can occur and are empty, and those that cannot and are
    /// not.
    pub fn wrong(&self) -> Vec<String> {
        self.cells(|possible, count| possible != (count > 0))
    }

    /// The latter alone.
    pub fn impossible(&self) -> Vec<String> {
        self.cells(|possible, count| !possible && count > 0)
    }

    fn cells(&self, chosen: impl Fn(bool, u64) -> bool) -> Vec<String> {
        let mut cells = Vec::new();
        for (line, counts) in self.counts.iter().enumerate() {
            for (column, &count) in counts.iter().enumerate() {
                if chosen(self.possible[line][column], count) {
                    let (line, column) = (&self.lines[line], self.columns[column]);
                    cells.push(format!("{}, {line}, {column}: {count}", self.name));
                }
            }
        }
        cells
    }
}

impl Display for Grid {
    fn fmt(&self, f: &mut Formatter) -> fmt::Result {
        let names = self.lines.iter().map(String::len);
        let width = names.max().unwrap_or_default().max(self.name.len());
        write_line(f, width, self.name, &self.columns)?;
        for (line, counts) in self.counts.iter().enumerate() {
            let cells = counts.iter().enumerate();
            let told = cells.map(|(column, count)| match count {
                0 if !self.possible[line][column] => "-".to_string(),
                count => count.to_string(),
            });
            write_line(f, width, &self.lines[line], &told.collect::<Vec<_>>())?;
        }
        Ok(())
    }
}

/// One line, in columns that are wide enough for their names.
fn write_line(f: &mut Formatter, width: usize, name: &str, told: &[impl Display]) -> fmt::Result {
    write!(f, "{name:<width$}")?;
    for own in told {
        write!(f, " {own:>12}")?;
    }
    writeln!(f)
}
