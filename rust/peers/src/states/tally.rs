//! What the cases of a run were.

use super::faults::Fault;
use super::generate::PAGE;
use super::judge::Verdict;
use super::machine::{Emulator, End, Machine, Reply};
use compare::case::{Case, Outcome};
use compare::exhaustive::blocks::Sum;
use compare::rows::{encoding, TABLE};
use compare::view::View;
use second::execute::VECTOR_LENGTHS;
use std::collections::BTreeMap;
use std::fmt::{self, Display, Formatter};

/// Below this many cases, an encoding may be missing by chance.
const ENOUGH: u64 = 100_000;
/// The answers of execution, 0 to 7.
const ANSWERS: usize = 8;

/// Counts of the cases on which both agree or differ by known faults.
#[derive(Default)]
pub struct Tally {
    /// The machine of the thread that counts.
    machine: Option<Machine>,
    pub cases: u64,
    /// Those with a known fault.
    pub known: u64,
    answers: [u64; ANSWERS],
    pub faults: BTreeMap<Fault, u64>,
    /// How often the words of each row were done at each vector length.
    done: BTreeMap<(usize, u64), u64>,
    notable: [u64; NOTABLE.len()],
}

/// Accesses that were done, with an active element, and could well go wrong.
type Test = fn(&View) -> bool;
const NOTABLE: [(&str, Test); 3] = [
    ("over a page", |view| {
        pages(view.first_address(), view.last_address())
    }),
    ("with an element on both pages", |view| {
        view.active.iter().any(|&e| {
            let (first, last) = view.ends(e);
            pages(Some(first), Some(last))
        })
    }),
    // Element 0 is then below 2^64 and inactive: nothing is mapped there.
    ("past 2^64", |view| view.wraps()),
];

/// Whether two addresses are on different pages.
fn pages(first: Option<u128>, last: Option<u128>) -> bool {
    let page = |address: Option<u128>| address.map(|address| address / u128::from(PAGE));
    page(first) != page(last)
}

impl Sum for Tally {
    fn merge(&mut self, other: Tally) {
        self.cases += other.cases;
        self.known += other.known;
        for (own, other) in self.answers.iter_mut().zip(other.answers) {
            *own += other;
        }
        for (fault, count) in other.faults {
            *self.faults.entry(fault).or_default() += count;
        }
        for (place, count) in other.done {
            *self.done.entry(place).or_default() += count;
        }
        for (own, other) in self.notable.iter_mut().zip(other.notable) {
            *own += other;
        }
    }
}

impl Tally {
    /// The machine, started anew if there is none or the last one died.
    pub fn machine(&mut self, emulator: &Emulator) -> Result<&mut Machine, String> {
        let machine = match self.machine.take() {
            Some(machine) => machine,
            None => Machine::start(emulator)?,
        };
        Ok(self.machine.insert(machine))
    }

    /// Counts one case.
    pub fn add(&mut self, case: &Case, own: &Outcome, reply: &Reply, verdict: &Verdict) {
        self.cases += 1;
        self.answers[own.answer as usize] += 1;
        if let Verdict::Known(faults) = verdict {
            self.known += 1;
            for &fault in faults {
                *self.faults.entry(fault).or_default() += 1;
            }
        }
        if matches!(reply.end, End::Died { .. }) {
            self.machine = None;
        }
        if let (0, Some(row)) = (own.answer, encoding(case.word)) {
            let place = (row, case.settings.vector_bytes);
            *self.done.entry(place).or_default() += 1;
            self.add_notable(&View::new(case, own));
        }
    }

    fn add_notable(&mut self, view: &View) {
        if view.access().is_some() && !view.active.is_empty() {
            for (count, (_, test)) in self.notable.iter_mut().zip(NOTABLE) {
                *count += u64::from(test(view));
            }
        }
    }

    /// An error if an encoding of these levels was never done at a vector
    /// length.
    pub fn check(&self, level: u64) -> Result<(), String> {
        for (number, row) in TABLE.iter().enumerate() {
            for length in VECTOR_LENGTHS {
                let due = u64::from(row.level) <= level && self.cases >= ENOUGH;
                if due && !self.done.contains_key(&(number, length)) {
                    let base = row.base;
                    return Err(format!(
                        "FAILED: no word like {base:08X} was done at vector length {length}"
                    ));
                }
            }
        }
        Ok(())
    }
}

impl Display for Tally {
    fn fmt(&self, f: &mut Formatter) -> fmt::Result {
        let answers: Vec<String> = (self.answers.iter().enumerate())
            .filter(|(_, &count)| count > 0)
            .map(|(answer, count)| format!("{count} of {answer}"))
            .collect();
        writeln!(f, "answers of the unit: {}", answers.join(", "))?;
        let notable: Vec<String> = (NOTABLE.iter().zip(self.notable))
            .map(|((name, _), count)| format!("{count} {name}"))
            .collect();
        writeln!(f, "accesses done: {}", notable.join(", "))?;
        writeln!(f, "{} states with a known fault of the peer:", self.known)?;
        for (fault, name) in Fault::ALL {
            let count = self.faults.get(&fault).copied().unwrap_or(0);
            writeln!(f, "  {count:>8}  {name}")?;
        }
        Ok(())
    }
}
