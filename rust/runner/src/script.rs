//! A script: settings, first contents, words and expectations in order, all checked before anything is run.

mod draft;
mod expect;
mod files;
mod members;
mod parser;

use sme_move::{Settings, State};
use std::ops::Range;

pub use draft::vector_bytes;
pub use expect::{Answer, Expectation, Subject};
pub use files::WORD_BYTES;
pub use parser::parse;

/// A script without faults.
#[derive(Debug)]
pub struct Script {
    pub settings: Settings,
    pub memory: Vec<u8>,
    pub steps: Vec<Step>,
}

#[derive(Debug)]
pub struct Step {
    pub line: usize,
    pub action: Action,
}

#[derive(Debug, PartialEq)]
pub enum Action {
    Register {
        number: usize,
        value: u64,
    },
    Content {
        place: Place,
        number: usize,
        bytes: Vec<u8>,
    },
    /// Every vector of the array.
    Array(Vec<u8>),
    Word(Word),
    Expect(Expectation),
}

/// A word to execute.
#[derive(Clone, Copy, Debug, PartialEq)]
pub struct Word {
    pub word: u32,
    /// Where it stands in a file of words, if it comes from one.
    pub file_byte: Option<usize>,
    /// Whether an expectation says which answer it gets, so that a refusal is no surprise.
    pub answer_expected: bool,
}

impl Step {
    pub fn word(&self) -> Option<Word> {
        match self.action {
            Action::Word(word) => Some(word),
            _ => None,
        }
    }
}

/// The words among steps, in order, as a file of words has them.
pub fn listing_of(steps: &[Step]) -> Vec<u8> {
    let words = steps.iter().filter_map(Step::word);
    files::bytes_of(words.map(|word| word.word))
}

/// What has numbered vectors or predicates of bytes.
#[derive(Clone, Copy, Debug, PartialEq)]
pub enum Place {
    Vector,
    Predicate,
    Array,
}

pub const PLACES: [Place; 3] = [Place::Vector, Place::Predicate, Place::Array];

impl Place {
    /// What one of its members is called.
    pub fn member(self) -> &'static str {
        match self {
            Place::Vector => "vector register",
            Place::Predicate => "predicate",
            Place::Array => "vector of the array",
        }
    }

    pub fn members(self, vector_bytes: usize) -> usize {
        match self {
            Place::Vector => 32,
            Place::Predicate => 16,
            Place::Array => vector_bytes,
        }
    }

    pub fn member_bytes(self, vector_bytes: usize) -> usize {
        match self {
            Place::Predicate => vector_bytes / 8,
            Place::Vector | Place::Array => vector_bytes,
        }
    }

    /// The buffer that has all members.
    pub fn buffer(self, state: &State) -> &[u8] {
        match self {
            Place::Vector => &state.z,
            Place::Predicate => &state.p,
            Place::Array => &state.za,
        }
    }

    pub fn buffer_mut(self, state: &mut State) -> &mut [u8] {
        match self {
            Place::Vector => &mut state.z,
            Place::Predicate => &mut state.p,
            Place::Array => &mut state.za,
        }
    }

    /// Where a member lies in the buffer, which is laid out for the largest vector length.
    pub fn range(self, number: usize, settings: Settings) -> Range<usize> {
        let start = number * self.member_bytes(settings.largest_vector_bytes as usize);
        start..start + self.member_bytes(settings.vector_bytes as usize)
    }

    /// Where in the buffer there is no member: behind each of them, and where more would be if vectors were longer.
    pub fn between(self, settings: Settings) -> impl Iterator<Item = Range<usize>> {
        let [count, places] = [settings.vector_bytes, settings.largest_vector_bytes]
            .map(|bytes| self.members(bytes as usize));
        (0..places).map(move |number| {
            let member = self.range(number, settings);
            let start = if number < count {
                member.end
            } else {
                member.start
            };
            start..self.range(number + 1, settings).start
        })
    }
}

/// Why a script is not run.
#[derive(Debug)]
pub struct Fault {
    line: Option<usize>,
    message: String,
}

impl Fault {
    /// A fault of the whole file, where no line can be named.
    pub fn of_file(message: impl Into<String>) -> Fault {
        Fault {
            line: None,
            message: message.into(),
        }
    }

    pub fn of_line(line: usize, message: impl Into<String>) -> Fault {
        Fault {
            line: Some(line),
            message: message.into(),
        }
    }

    /// The message as it is printed.
    pub fn in_file(&self, name: &str) -> String {
        match self.line {
            Some(line) => format!("{name}:{line}: {}", self.message),
            None => format!("{name}: {}", self.message),
        }
    }
}
