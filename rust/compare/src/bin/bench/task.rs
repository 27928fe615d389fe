//! A call that is timed: what it is lent, what it must answer, and what it is
//! set beside.

use crate::active::Active;
use crate::empty;
use crate::machine::Machine;
use crate::row::{Goal, Part};
use compare::case::Function;
use sme_move::{numbers, Refusal};

/// What is called in the archive's place.
#[derive(Clone, Copy, Debug, PartialEq, Eq)]
pub enum Callee {
    Archive,
    /// A function that does nothing; there is no second program to it.
    Nothing,
}

impl Callee {
    pub fn function(self) -> Function {
        match self {
            Callee::Archive => numbers::execute,
            Callee::Nothing => empty::execute,
        }
    }
}

/// The plain loop that does the same as a vertical operation.
#[derive(Clone, Copy, Debug, PartialEq, Eq)]
pub enum Strided {
    ToTile,
    FromTile,
    ZeroingFromTile,
    Load,
    Store,
}

/// One call and what it is set beside.
#[derive(Clone)]
pub struct Task {
    pub name: String,
    /// What it is counted under where runs are compared.
    pub kind: String,
    pub callee: Callee,
    pub word: u32,
    /// The number of the answer that it must get.
    pub answer: u32,
    pub vector_bytes: usize,
    /// The vector length that the buffers are for.
    pub largest: usize,
    pub element_bytes: usize,
    pub active: Active,
    /// What is different on its machine.
    pub prepare: fn(&mut Machine),
    /// How many vectors the plain copy moves, and whether it then clears where they were.
    pub copied: usize,
    pub zeroes: bool,
    pub strided: Option<Strided>,
    pub goal: Option<Goal>,
    pub part: Part,
}

impl Task {
    /// A machine with what the call is lent.
    pub fn machine(&self) -> Machine {
        let predicate = self.active.predicate(self.vector_bytes, self.element_bytes);
        let mut machine = Machine::new(self.vector_bytes, self.largest, &predicate);
        (self.prepare)(&mut machine);
        machine
    }

    /// The same call on another machine, with this behind its name and kind.
    pub fn changed(&self, how: &str, prepare: fn(&mut Machine)) -> Task {
        Task {
            name: format!("{}, {how}", self.name),
            kind: format!("{}, {how}", self.kind),
            prepare,
            ..self.clone()
        }
    }

    /// The same call, refused. It is beside a copy of what it would have
    /// moved.
    pub fn refused(&self, refusal: Refusal, why: &str, prepare: fn(&mut Machine)) -> Task {
        let answer = refusal.number();
        Task {
            name: format!("answer {answer}, {why}"),
            kind: format!("answer {answer}"),
            answer,
            prepare,
            zeroes: false,
            strided: None,
            goal: None,
            ..self.clone()
        }
    }
}
