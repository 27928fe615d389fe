//! Which elements answer 7 was given for, by size, direction, and whether the
//! word is a store or a load. A unit that tells 0, or goes by something else
//! than the element's number, must be led to elements above 0 in each of these.

#[cfg(test)]
mod tests;

use crate::columns::write_line;
use crate::names::{self, Named, ACCESSES, FAULT, WAYS};
use crate::rows::Drawn;
use crate::view::View;
use second::flat::Flat;
use sme_move::Kind;
use std::fmt::{self, Display, Formatter};

/// The bytes that elements can have.
const SIZES: [u8; 5] = [1, 2, 4, 8, 16];
/// Of the answers 7 one in so many must be for an element above 0, of all and
/// of each size.
const ONE_IN: u64 = 3;

/// How many answers 7 there were, and how many of them for an element above 0.
#[derive(Clone, Copy, Debug, Default, PartialEq, Eq)]
struct Cell {
    answers: u64,
    above: u64,
}

impl Cell {
    fn add(&mut self, other: Cell) {
        self.answers += other.answers;
        self.above += other.above;
    }

    fn sum(cells: impl Iterator<Item = Cell>) -> Cell {
        let mut sum = Cell::default();
        cells.for_each(|own| sum.add(own));
        sum
    }

    /// Whether too few are above 0.
    fn is_low(self) -> bool {
        ONE_IN * self.above < self.answers
    }
}

/// Counts of the cases with answer 7, of loads and stores that are drawn from
/// some rows.
pub struct Elements {
    drawn: Drawn,
    /// By size, direction and kind.
    counts: [[[Cell; ACCESSES.len()]; WAYS.len()]; SIZES.len()],
    strange: Vec<String>,
}

impl Elements {
    /// No cases yet, to be drawn from these rows.
    pub fn new(drawn: Drawn) -> Elements {
        Elements {
            drawn,
            counts: Default::default(),
            strange: Vec::new(),
        }
    }

    /// Counts one case.
    pub fn add(&mut self, view: &View) {
        if !right(view) {
            let (word, element) = (view.case.word, view.element);
            self.strange
                .push(format!("{word:08X}: element {element}, which cannot be"));
        }
        let fault = view.access().filter(|_| view.refused(FAULT));
        if let Some(cell) = fault.and_then(|own| self.cell(&own)) {
            cell.add(Cell {
                answers: 1,
                above: u64::from(view.element > 0),
            });
        }
    }

    /// The cell of such a load or store.
    fn cell(&mut self, own: &Flat) -> Option<&mut Cell> {
        let direction = names::direction(own);
        let size = SIZES.iter().position(|m| *m == own.element_bytes)?;
        let way = WAYS.iter().position(|(way, _)| *way == direction)?;
        let kind = ACCESSES.iter().position(|kind| *kind == own.kind())?;
        Some(&mut self.counts[size][way][kind])
    }

    /// Takes the counts of other cases in.
    pub fn merge(&mut self, other: Elements) {
        let cells = self.counts.iter_mut().flatten().flatten();
        for (own, other) in cells.zip(other.counts.iter().flatten().flatten()) {
            own.add(*other);
        }
        self.strange.extend(other.strange);
        self.strange.sort();
    }

    /// Elements that document 01 does not allow as amended, although both
    /// programs agree on them.
    pub fn impossible(&self) -> &[String] {
        &self.strange
    }

    /// Cells that are empty, and too few elements above 0.
    pub fn missing(&self) -> Vec<String> {
        let mut missing = Vec::new();
        for (size, m) in SIZES.into_iter().enumerate() {
            for line in self.lines_of(size) {
                missing.extend(line.missing());
            }
            if self.sum_of(size).is_low() {
                missing.push(format!("m={m}, {}", too_few()));
            }
        }
        if self.sum().is_low() {
            missing.push(too_few());
        }
        missing
    }

    /// The two lines of one size.
    fn lines_of(&self, size: usize) -> impl Iterator<Item = Line> + '_ {
        let m = SIZES[size];
        let drawn = self.drawn;
        let has = move |kind| drawn.has_row(|row| row.kind() == kind && row.element_bytes == m);
        let ways = WAYS.into_iter().zip(&self.counts[size]);
        ways.map(move |((_, way), cells)| {
            let kinds = ACCESSES.into_iter().zip(cells);
            let cells = kinds.map(|(kind, cell)| has(kind).then_some((kind, *cell)));
            Line {
                name: format!("m={m}, {way}"),
                cells: cells.collect(),
            }
        })
    }

    fn sum_of(&self, size: usize) -> Cell {
        Cell::sum(self.counts[size].iter().flatten().copied())
    }

    fn sum(&self) -> Cell {
        Cell::sum((0..SIZES.len()).map(|size| self.sum_of(size)))
    }
}

/// Whether the element is one that the answer can carry: that of the address,
/// which is active, with 7, and 0 with every other.
fn right(view: &View) -> bool {
    match view.fault() {
        Some((e, _)) => view.element == e as u64 && view.active.contains(&e),
        None => view.element == 0,
    }
}

fn too_few() -> String {
    format!("less than one in {ONE_IN} of the answers 7 are for an element above 0")
}

/// One size and direction, and the kinds that are drawn.
struct Line {
    name: String,
    cells: Vec<Option<(Kind, Cell)>>,
}

impl Line {
    fn missing(&self) -> Vec<String> {
        let mut missing = Vec::new();
        for (kind, cell) in self.cells.iter().flatten() {
            let name = format!("{}, {}", names::name(*kind), self.name);
            if cell.answers == 0 {
                missing.push(format!("never: {name}, answer 7"));
            } else if cell.above == 0 {
                missing.push(format!("never: {name}, answer 7 for an element above 0"));
            }
        }
        missing
    }

    /// Counts, or a dash where nothing can be.
    fn told(&self) -> Vec<String> {
        let cells = self.cells.iter();
        let counts = cells.map(|own| own.map(|(_, cell)| [cell.answers, cell.above]));
        let told = counts.map(|own| match own {
            Some(counts) => counts.map(|count| count.to_string()),
            None => ["-", "-"].map(str::to_string),
        });
        told.flatten().collect()
    }
}

impl Display for Elements {
    fn fmt(&self, f: &mut Formatter) -> fmt::Result {
        let columns = ACCESSES.map(|kind| [names::name(kind), "above 0"]);
        write_line(f, "answer 7, by its element", columns.as_flattened())?;
        for line in (0..SIZES.len()).flat_map(|size| self.lines_of(size)) {
            write_line(f, &line.name, &line.told())?;
        }
        let Cell { answers, above } = self.sum();
        writeln!(
            f,
            "answer 7: {answers} cases, {above} of them for an element above 0"
        )
    }
}
