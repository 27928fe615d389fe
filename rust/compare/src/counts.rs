//! What the cases of a run were, and whether any that must occur is missing.

use crate::accesses::Accesses;
use crate::case::{Case, Outcome};
use crate::elements::Elements;
use crate::pairs::PAIRS;
use crate::paths::Paths;
use crate::rows::Drawn;
use crate::situations::Situations;
use crate::table::Table;
use crate::view::View;
use std::fmt::{self, Display, Formatter};

/// Below this many cases for each row that is drawn from, a cell of the table
/// may be empty by chance.
const ENOUGH_FOR_A_ROW: u64 = 20_000;

/// How many cases are enough to ask for all that can occur.
pub fn enough(drawn: Drawn) -> u64 {
    ENOUGH_FOR_A_ROW * drawn.rows().len() as u64
}

/// Counts of the cases on which the two programs agree.
pub struct Counts {
    cases: u64,
    drawn: Drawn,
    table: Table,
    situations: Situations,
    accesses: Accesses,
    elements: Elements,
    paths: Paths,
}

/// Counts of cases that are drawn from all rows.
impl Default for Counts {
    fn default() -> Counts {
        Counts::new(Drawn::All)
    }
}

impl Counts {
    /// No cases yet, to be drawn from these rows.
    pub fn new(drawn: Drawn) -> Counts {
        Counts {
            cases: 0,
            drawn,
            table: Table::new(drawn),
            situations: Situations::new(drawn),
            accesses: Accesses::default(),
            elements: Elements::new(drawn),
            paths: Paths::new(drawn),
        }
    }

    /// Counts one case.
    pub fn add(&mut self, case: &Case, outcome: &Outcome) {
        self.cases += 1;
        self.table.add(case, outcome.answer);
        let view = View::new(case, outcome);
        self.situations.add(&view);
        self.accesses.add(&view);
        self.elements.add(&view);
        self.paths.add(&view);
    }

    /// Takes the counts of other cases in.
    pub fn merge(&mut self, other: Counts) {
        self.cases += other.cases;
        self.table.merge(other.table);
        self.situations.merge(other.situations);
        self.accesses.merge(&other.accesses);
        self.elements.merge(other.elements);
        self.paths.merge(&other.paths);
    }

    /// How many cases there were.
    pub fn cases(&self) -> u64 {
        self.cases
    }

    /// How many of them had buffers for longer vectors.
    pub fn long_cases(&self) -> u64 {
        let long = PAIRS.iter().zip(self.table.by_pair());
        let long = long.filter(|(pair, _)| pair.is_long());
        long.map(|(_, [cases, _])| cases).sum()
    }

    /// An error, a line for each, if a case that can occur is missing or one
    /// occurred that cannot.
    pub fn check(&self) -> Result<(), String> {
        no_complaints(&self.complaints())
    }

    fn complaints(&self) -> Vec<String> {
        let mut complaints = self.table.impossible();
        complaints.extend_from_slice(self.elements.impossible());
        if self.cases >= enough(self.drawn) {
            complaints.extend(self.table.missing());
            complaints.extend(self.situations.missing());
            complaints.extend(self.elements.missing());
            complaints.extend(self.paths.missing());
        }
        complaints
    }
}

/// An error, a line for each, if there are complaints.
pub fn no_complaints(complaints: &[String]) -> Result<(), String> {
    if complaints.is_empty() {
        return Ok(());
    }
    let lines = complaints.iter().map(|own| format!("FAILED: {own}"));
    Err(lines.collect::<Vec<_>>().join("\n"))
}

impl Display for Counts {
    fn fmt(&self, f: &mut Formatter) -> fmt::Result {
        writeln!(f, "{}\n{}", self.table, self.situations)?;
        writeln!(f, "{}", self.table.answers())?;
        for (pair, [cases, done]) in PAIRS.iter().zip(self.table.by_pair()) {
            writeln!(f, "{pair}: {cases} cases, {done} done")?;
        }
        if self.drawn.has_access() {
            write!(f, "{}\n{}", self.accesses, self.elements)?;
        }
        write!(f, "{}", self.paths)
    }
}
