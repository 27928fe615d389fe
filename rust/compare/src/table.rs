//! How often each answer was given, by encoding, pair of vector lengths and
//! position of the stack check.

use crate::case::Case;
use crate::names::{is_access, on_or_off, Named, FAULT};
use crate::pairs::{Pair, PAIRS};
use crate::rows::{encoding, Drawn, NO_ENCODING, TABLE};
use second::execute::VECTOR_LENGTHS;
use sme_move::Refusal;
use std::fmt::{self, Display, Formatter};

/// The encodings, in the order of the table of words, and the words without
/// any.
pub(crate) const NAMES: [&str; NO_ENCODING + 1] = [
    "move to tile, m=1",
    "move to tile, m=2",
    "move to tile, m=4",
    "move to tile, m=8",
    "move to tile, m=16",
    "move and zero from tile, m=1",
    "move and zero from tile, m=2",
    "move and zero from tile, m=4",
    "move and zero from tile, m=8",
    "move and zero from tile, m=16",
    "move from array, four",
    "move and zero from array, two",
    "store, m=1",
    "move from tile, m=1",
    "move from tile, m=2",
    "move from tile, m=4",
    "move from tile, m=8",
    "move from tile, m=16",
    "move from array, two",
    "move and zero from array, four",
    "store, m=2",
    "store, m=4",
    "store, m=8",
    "store, m=16",
    "load, m=1",
    "load, m=2",
    "load, m=4",
    "load, m=8",
    "load, m=16",
    "no encoding",
];
/// The answers of execution, 0 to 7.
const ANSWERS: usize = FAULT.number() as usize + 1;
const DONE: usize = 0;
/// The one that vector lengths get which are no pair.
const BAD_SETTINGS: usize = Refusal::BadSettings.number() as usize;
/// The positions of the stack check, in the order of the lines: on has number
/// 0 and off number 1.
const POSITIONS: [bool; 2] = [true, false];

/// What is wrong with vector lengths that are no pair: the vector length is
/// none of the five, or the largest one is none or below it.
const OTHERS: [&str; 2] = ["length", "largest"];

/// Counts by encoding, pair of vector lengths, position of the stack check and
/// answer, of cases that are drawn from some rows.
///
/// A case whose vector lengths are no pair has no line to stand in; it is
/// answered 1 and counted apart, by encoding, what is wrong and position.
pub struct Table {
    drawn: Drawn,
    counts: Vec<[[[u64; ANSWERS]; POSITIONS.len()]; PAIRS.len()]>,
    others: [[[u64; POSITIONS.len()]; OTHERS.len()]; NAMES.len()],
    strange: Vec<String>,
}

/// A line of the table: the cases of one encoding that have one of the pairs
/// and the stack check in one position.
struct Line<'a> {
    row: usize,
    pair: Pair,
    stack_check: bool,
    counts: &'a [u64; ANSWERS],
}

impl Table {
    /// No cases yet, to be drawn from these rows.
    pub fn new(drawn: Drawn) -> Table {
        Table {
            drawn,
            counts: vec![[[[0; ANSWERS]; POSITIONS.len()]; PAIRS.len()]; NAMES.len()],
            others: [[[0; POSITIONS.len()]; OTHERS.len()]; NAMES.len()],
            strange: Vec::new(),
        }
    }

    /// Counts one case.
    pub fn add(&mut self, case: &Case, answer: u32) {
        let row = encoding(case.word).unwrap_or(NO_ENCODING);
        let settings = &case.settings;
        let position = usize::from(!settings.stack_check);
        let drawn = self.drawn.has(row);
        match (Pair::number(settings), answer as usize) {
            (Some(pair), answer) if drawn && answer < ANSWERS => {
                self.counts[row][pair][position][answer] += 1;
            }
            (None, BAD_SETTINGS) if drawn => {
                let other = usize::from(VECTOR_LENGTHS.contains(&settings.vector_bytes));
                self.others[row][other][position] += 1;
            }
            _ => self.strange.push(format!(
                "{}, vector length {} in buffers for {}: answer {answer}",
                NAMES[row], settings.vector_bytes, settings.largest_vector_bytes
            )),
        }
    }

    /// Takes the counts of other cases in. What is strange is sorted, so that
    /// the order in which threads come to an end does not show.
    pub fn merge(&mut self, other: Table) {
        let cells = self.counts.iter_mut().flatten().flatten().flatten();
        for (own, other) in cells.zip(other.counts.iter().flatten().flatten().flatten()) {
            *own += other;
        }
        let apart = self.others.iter_mut().flatten().flatten();
        for (own, other) in apart.zip(other.others.iter().flatten().flatten()) {
            *own += other;
        }
        self.strange.extend(other.strange);
        self.strange.sort();
    }

    /// Cells that can occur and are empty, and too few cases done.
    pub fn missing(&self) -> Vec<String> {
        let mut missing = self.cells(|possible, count| possible && count == 0);
        for (row, name) in self.names() {
            for (other, stack, count) in self.others_of(row) {
                if count == 0 {
                    let cell = format!("{name}, wrong {other}, stack check {stack}");
                    missing.push(format!("{cell}: 0 cases"));
                }
            }
        }
        if 2 * self.answered(DONE) < self.total() {
            missing.push("less than half of the cases are done".to_string());
        }
        missing
    }

    /// Answers that document 01 does not allow, although both agree on them,
    /// and words of rows that are not drawn from.
    pub fn impossible(&self) -> Vec<String> {
        let mut impossible = self.cells(|possible, count| !possible && count > 0);
        impossible.extend_from_slice(&self.strange);
        impossible
    }

    /// The cells that `chosen` picks by whether they can occur and by count.
    fn cells(&self, chosen: impl Fn(bool, u64) -> bool) -> Vec<String> {
        let mut cells = Vec::new();
        for line in self.lines() {
            for (answer, &count) in line.counts.iter().enumerate() {
                if chosen(line.can_occur(answer), count) {
                    cells.push(format!("{line}, answer {answer}: {count} cases"));
                }
            }
        }
        cells
    }

    /// How many cases had each answer, in a line.
    pub fn answers(&self) -> String {
        let counts = (0..ANSWERS).map(|answer| format!("{} of {answer}", self.answered(answer)));
        format!("answers: {}", counts.collect::<Vec<_>>().join(", "))
    }

    /// How many cases had this answer.
    pub fn answered(&self, answer: usize) -> u64 {
        let positions = 0..POSITIONS.len();
        positions.map(|own| self.answered_at(own, answer)).sum()
    }

    /// How many of them had the stack check in the position of this number.
    fn answered_at(&self, position: usize, answer: usize) -> u64 {
        let lines = self.counts.iter().flatten();
        let apart = self.others.iter().flatten().map(|own| own[position]);
        let apart = if answer == BAD_SETTINGS {
            apart.sum()
        } else {
            0
        };
        lines.map(|line| line[position][answer]).sum::<u64>() + apart
    }

    fn total(&self) -> u64 {
        (0..ANSWERS).map(|answer| self.answered(answer)).sum()
    }

    /// How many cases had each pair, and how many of them were done.
    pub fn by_pair(&self) -> impl Iterator<Item = [u64; 2]> + '_ {
        (0..PAIRS.len()).map(|pair| {
            let lines = || self.counts.iter().flat_map(move |own| &own[pair]);
            [
                lines().flatten().sum(),
                lines().map(|line| line[DONE]).sum(),
            ]
        })
    }

    /// The cases of one row that are counted apart: what is wrong, the
    /// position of the stack check, and how many there are.
    fn others_of(&self, row: usize) -> impl Iterator<Item = (&str, &str, u64)> {
        let others = OTHERS.into_iter().zip(self.others[row]);
        others.flat_map(|(other, counts)| {
            let positions = POSITIONS.into_iter().zip(counts);
            positions.map(move |(stack_check, count)| (other, on_or_off(stack_check), count))
        })
    }

    /// The rows that are drawn from, and the words without an encoding.
    fn names(&self) -> impl Iterator<Item = (usize, &'static str)> {
        let drawn = self.drawn;
        let names = NAMES.into_iter().enumerate();
        names.filter(move |&(row, _)| drawn.has(row))
    }

    /// The lines of these rows.
    fn lines(&self) -> impl Iterator<Item = Line<'_>> {
        self.names().flat_map(|(row, _)| self.lines_of(row))
    }

    /// The lines of one row: for each pair, one with the stack check on and
    /// one with it off.
    fn lines_of(&self, row: usize) -> impl Iterator<Item = Line<'_>> {
        let pairs = PAIRS.into_iter().zip(&self.counts[row]);
        pairs.flat_map(move |(pair, positions)| {
            let positions = POSITIONS.into_iter().zip(positions);
            positions.map(move |(stack_check, counts)| Line {
                row,
                pair,
                stack_check,
                counts,
            })
        })
    }
}

impl Line<'_> {
    /// Which answers document 01 allows as amended: 6 and 7 to loads and
    /// stores only, 6 only with the stack check on, 0 and what comes after
    /// decoding only to a word with an encoding. Every encoding has a level
    /// below its own, so that 3 can occur to each.
    fn can_occur(&self, answer: usize) -> bool {
        let access = || {
            let row = TABLE.get(self.row);
            row.is_some_and(|own| is_access(own.kind()))
        };
        match Refusal::of_number(answer as u32, 0, 0) {
            Some(Refusal::BadSettings | Refusal::BadLengths | Refusal::Undecodable) => true,
            Some(Refusal::StackMisaligned) => self.stack_check && access(),
            Some(Refusal::OutsideMemory { .. }) => access(),
            _ => self.row != NO_ENCODING,
        }
    }

    /// A count, or a dash where nothing can be.
    fn told(&self, answer: usize) -> String {
        match self.counts[answer] {
            0 if !self.can_occur(answer) => "-".to_string(),
            count => count.to_string(),
        }
    }
}

/// What the line is called where a cell of it is told of.
impl Display for Line<'_> {
    fn fmt(&self, f: &mut Formatter) -> fmt::Result {
        let (name, pair) = (NAMES[self.row], self.pair);
        let stack = on_or_off(self.stack_check);
        write!(f, "{name}, {pair}, stack check {stack}")
    }
}

impl Display for Table {
    fn fmt(&self, f: &mut Formatter) -> fmt::Result {
        let numbers = (0..ANSWERS).map(|answer| answer.to_string());
        write_line(f, ["encoding", "length", "buffers", "stack"], numbers)?;
        for (row, name) in self.names() {
            for line in self.lines_of(row) {
                let [length, largest] =
                    [line.pair.vector_bytes, line.pair.largest].map(|bytes| bytes.to_string());
                let told = (0..ANSWERS).map(|answer| line.told(answer));
                let stack = on_or_off(line.stack_check);
                write_line(f, [name, &length, &largest, stack], told)?;
            }
            for (other, stack, count) in self.others_of(row) {
                let told = ["-".to_string(), count.to_string()];
                write_line(f, [name, "wrong", other, stack], told)?;
            }
        }
        for (position, stack_check) in POSITIONS.into_iter().enumerate() {
            let told = (0..ANSWERS).map(|answer| self.answered_at(position, answer).to_string());
            write_line(f, ["all", "", "", on_or_off(stack_check)], told)?;
        }
        Ok(())
    }
}

/// One line, in columns.
fn write_line(
    f: &mut Formatter,
    [name, length, largest, stack]: [&str; 4],
    told: impl IntoIterator<Item = String>,
) -> fmt::Result {
    write!(f, "{name:<30} {length:>6} {largest:>7} {stack:>5}")?;
    for own in told {
        write!(f, " {own:>8}")?;
    }
    writeln!(f)
}
