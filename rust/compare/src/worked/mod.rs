//! Worked examples: cases with what must come of them written out, to which
//! both programs are held.

mod accesses;
mod elements;
mod long_buffers;
mod stack_check;

use crate::beyond::Beyond;
use crate::case::{Answered, Case, Outcome};
use crate::names::{self, Answer};
use second::execute::Mistake;
use sme_move::Refusal;

/// A case and what must come of it. X and P must stay.
pub struct Worked {
    pub name: String,
    pub case: Case,
    /// With the address and the element, where it carries them.
    pub answer: Answer,
    pub z: Vec<u8>,
    pub za: Vec<u8>,
    pub memory: Vec<u8>,
}

/// All worked examples.
pub fn list() -> Vec<Worked> {
    let mut all = accesses::list();
    all.extend(long_buffers::list());
    all
}

impl Worked {
    /// Runs the case through both programs. An error tells of the first that
    /// does something else than is written out.
    pub fn check(&self) -> Result<(), String> {
        let mut second = Outcome::default();
        second.run_second(&self.case, Mistake::None);
        self.hold("second", &second)?;
        let mut archive = Outcome::default();
        archive.run_archive(&self.case);
        self.hold("archive", &archive)
    }

    /// The answer as numbers.
    fn answered(&self) -> Answered {
        let of_refusal = |own: fn(Refusal) -> u64| self.answer.map_or_else(own, |()| 0);
        (
            names::number(self.answer),
            of_refusal(Refusal::address),
            of_refusal(Refusal::element),
        )
    }

    /// Holds one program's outcome to what is written out.
    pub fn hold(&self, program: &str, outcome: &Outcome) -> Result<(), String> {
        let wrong = |what: &str| Err(format!("FAILED: {}: {program}: {what}", self.name));
        let Outcome {
            answer,
            address,
            element,
            ..
        } = outcome;
        if (*answer, *address, *element) != self.answered() {
            return wrong(&format!(
                "answer {answer}, address {address:016X}, element {element}"
            ));
        }
        let case = &self.case;
        let buffers = [
            ("X", outcome.x == case.x),
            ("Z", outcome.z == self.z),
            ("P", outcome.p == case.p),
            ("ZA", outcome.za == self.za),
            ("memory", outcome.memory == self.memory),
        ];
        match buffers.iter().find(|(_, right)| !right) {
            Some((buffer, _)) => wrong(&format!("{buffer} is not as it must be")),
            None => Ok(()),
        }
    }
}

/// Level 3, every switch on, buffers of the right lengths whose bytes are
/// not zero, no memory, X all zero, and no predicate bit set.
pub fn case(vector_bytes: usize, word: u32) -> Case {
    case_within(vector_bytes, vector_bytes, word)
}

/// The same in buffers for vectors of the largest length, where every
/// predicate bit beyond the vector length is set.
pub fn case_within(vector_bytes: usize, largest: usize, word: u32) -> Case {
    let mut case = Case::empty();
    case.settings.vector_bytes = vector_bytes as u64;
    case.settings.largest_vector_bytes = largest as u64;
    case.settings.level = 3;
    case.settings.streaming = true;
    case.settings.za_on = true;
    case.word = word;
    case.x = vec![0; 32];
    case.z = bytes(32 * largest, 11);
    case.p = vec![0; 16 * largest / 8];
    case.za = bytes(largest * largest, 97);
    if let Some(beyond) = Beyond::of(&case.settings) {
        beyond.fill_p(&mut case.p, 0xFF);
    }
    case
}

/// Bytes that are not zero and differ from their neighbours.
fn bytes(count: usize, first: usize) -> Vec<u8> {
    let byte = |number: usize| (number * 7 % 251 + 1) as u8;
    (first..first + count).map(byte).collect()
}
