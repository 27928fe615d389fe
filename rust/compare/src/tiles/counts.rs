//! How often each answer was given, and for which cause 16 was.

use super::call::Call;
use super::rules::{Cause, Verdict};
use super::sets::SETS;
use crate::counts::no_complaints;
use crate::exhaustive::blocks::Sum;
use crate::names::{number, Answer};
use second::held::ELEMENT_BYTES;
use sme_move::Refusal;
use std::fmt::{self, Display, Formatter};

/// Below this many random arrays, a cell may be empty by chance.
const ENOUGH: u64 = 20_000;
/// The calls, in the order of the counts.
const CALLS: [&str; 2] = ["taking", "giving up"];
/// The answers that there are.
const ANSWERS: [Answer; 4] = [
    Ok(()),
    Err(Refusal::OutOfRange),
    Err(Refusal::NoFreeTile),
    Err(Refusal::BadHeld),
];
/// The five sizes, and all others.
const SIZES: usize = ELEMENT_BYTES.len() + 1;

/// Counts of the calls on which the two programs agree.
#[derive(Debug, Default, PartialEq, Eq)]
pub struct Counts {
    /// Sets of tiles, and random arrays.
    pub sets: u64,
    pub arrays: u64,
    /// By call, size and answer.
    answers: [[[u64; ANSWERS.len()]; SIZES]; CALLS.len()],
    /// By call and cause.
    causes: [[u64; Cause::ALL.len()]; CALLS.len()],
}

impl Counts {
    /// Counts one call, whose answer is that of the verdict.
    pub fn add(&mut self, call: Call, verdict: Verdict) {
        let (call, bytes) = match call {
            Call::Take { element_bytes } => (0, element_bytes),
            Call::GiveUp { tile } => (1, tile.element_bytes),
        };
        let size = ELEMENT_BYTES.iter().position(|own| *own == bytes);
        let line = &mut self.answers[call][size.unwrap_or(ELEMENT_BYTES.len())];
        for (count, answer) in line.iter_mut().zip(&ANSWERS) {
            *count += u64::from(number(*answer) == verdict.answer());
        }
        if let Verdict::Bad(cause) = verdict {
            self.causes[call][cause as usize] += 1;
        }
    }

    /// How many calls there were.
    pub fn calls(&self) -> u64 {
        self.answers.iter().flatten().flatten().sum()
    }

    /// An error, a line for each, if not every set was there or a case that
    /// can occur is missing.
    pub fn check(&self) -> Result<(), String> {
        let mut complaints = Vec::new();
        if self.sets != SETS {
            complaints.push(format!("{} sets of tiles and not {SETS}", self.sets));
        }
        if self.arrays >= ENOUGH {
            complaints.extend(self.missing());
        }
        no_complaints(&complaints)
    }

    /// The cells that can occur and are empty.
    fn missing(&self) -> Vec<String> {
        let mut missing = Vec::new();
        for (call, name) in CALLS.iter().enumerate() {
            for (size, line) in self.answers[call].iter().enumerate() {
                for (&count, answer) in line.iter().zip(ANSWERS) {
                    if count == 0 && can_occur(call, size, answer) {
                        let (size, answer) = (size_name(size), number(answer));
                        missing.push(format!("{name}, size {size}: no {answer}"));
                    }
                }
            }
            for ((_, cause, possible), count) in Cause::ALL.iter().zip(self.causes[call]) {
                if count == 0 && possible[call] {
                    missing.push(format!("{name}: no 16 for {cause}"));
                }
            }
        }
        missing
    }
}

impl Sum for Counts {
    fn merge(&mut self, other: Counts) {
        self.sets += other.sets;
        self.arrays += other.arrays;
        let answers = self.answers.iter_mut().flatten().flatten();
        let causes = self.causes.iter_mut().flatten();
        let others = other.answers.iter().flatten().flatten();
        let others = others.chain(other.causes.iter().flatten());
        for (own, other) in answers.chain(causes).zip(others) {
            *own += other;
        }
    }
}

/// Which answers there can be: 8 to asked sizes that are none of the five and
/// nothing else to these, and 16 alone to giving up such a size.
fn can_occur(call: usize, size: usize, answer: Answer) -> bool {
    let taking = call == 0;
    let is_size = size < ELEMENT_BYTES.len();
    match answer {
        Err(Refusal::OutOfRange) => taking && !is_size,
        Err(Refusal::NoFreeTile) => taking && is_size,
        Err(Refusal::BadHeld) => !taking || is_size,
        _ => is_size,
    }
}

fn size_name(size: usize) -> String {
    let bytes = ELEMENT_BYTES.get(size);
    bytes.map_or("other".to_string(), u64::to_string)
}

impl Display for Counts {
    fn fmt(&self, f: &mut Formatter) -> fmt::Result {
        write!(f, "{:<30} {:>5}", "call", "size")?;
        for answer in ANSWERS {
            write!(f, " {:>10}", number(answer))?;
        }
        writeln!(f)?;
        for (call, name) in CALLS.iter().enumerate() {
            for (size, line) in self.answers[call].iter().enumerate() {
                write!(f, "{name:<30} {:>5}", size_name(size))?;
                for (&count, answer) in line.iter().zip(ANSWERS) {
                    write_cell(f, count, can_occur(call, size, answer))?;
                }
                writeln!(f)?;
            }
        }
        let [taking, giving_up] = CALLS;
        writeln!(f, "{:<36} {taking:>10} {giving_up:>10}", "cause of 16")?;
        for (place, (_, cause, possible)) in Cause::ALL.iter().enumerate() {
            write!(f, "{cause:<36}")?;
            for (counts, possible) in self.causes.iter().zip(possible) {
                write_cell(f, counts[place], *possible)?;
            }
            writeln!(f)?;
        }
        let Counts { sets, arrays, .. } = self;
        writeln!(f, "{sets} sets in two orders, {arrays} random arrays")
    }
}

/// A count; a dash where nothing can be.
fn write_cell(f: &mut Formatter, count: u64, possible: bool) -> fmt::Result {
    if count == 0 && !possible {
        write!(f, " {:>10}", "-")
    } else {
        write!(f, " {count:>10}")
    }
}
