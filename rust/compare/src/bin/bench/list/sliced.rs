//! The operations on a slice of a tile: the byte tile, or tile 1 of a wider
//! size.

use crate::active::Active;
use crate::row::{Goal, Part};
use crate::task::{Callee, Strided, Task};
use compare::names;
use sme_move::{decode_fields, encode, encode_fields};
use sme_move::{Direction, ElementSize, Kind, Operation, Settings};

pub const ELEMENT_BYTES: [usize; 5] = [1, 2, 4, 8, 16];

/// Index register 12 with offset 0, and predicate 0, are in all words.
const INDEX: u8 = 12;
const OFFSET: u8 = 0;
const PREDICATE: u8 = 0;
/// The vector register of a move.
const VECTOR: u8 = 1;
/// The registers of a load or store.
const BASE: u8 = 1;
const OFFSET_REGISTER: u8 = 2;
const STACK_POINTER: u8 = 31;

/// An operation in its five sizes, with the loop beside it and its goal.
#[derive(Clone, Copy)]
pub struct Sliced {
    pub kind: Kind,
    /// Of a tile of this size, and of this direction.
    operation: fn(ElementSize, Direction) -> Operation,
    zeroes: bool,
    strided: Strided,
    goal: fn(Form) -> Option<Goal>,
}

pub const TO_TILE: Sliced = Sliced {
    kind: Kind::MovaToTile,
    operation: |size, direction| Operation::MovaToTile {
        size,
        direction,
        tile: tile(size),
        offset: OFFSET,
        index: INDEX,
        predicate: PREDICATE,
        vector: VECTOR,
    },
    zeroes: false,
    strided: Strided::ToTile,
    goal: goal_of_move,
};

pub const FROM_TILE: Sliced = Sliced {
    kind: Kind::MovaFromTile,
    operation: |size, direction| Operation::MovaFromTile {
        size,
        direction,
        tile: tile(size),
        offset: OFFSET,
        index: INDEX,
        predicate: PREDICATE,
        vector: VECTOR,
    },
    zeroes: false,
    strided: Strided::FromTile,
    goal: goal_of_move,
};

pub const ZEROING_FROM_TILE: Sliced = Sliced {
    kind: Kind::MovazFromTile,
    operation: |size, direction| Operation::MovazFromTile {
        size,
        direction,
        tile: tile(size),
        offset: OFFSET,
        index: INDEX,
        vector: VECTOR,
    },
    zeroes: true,
    strided: Strided::ZeroingFromTile,
    goal: goal_of_move,
};

pub const LOAD: Sliced = Sliced {
    kind: Kind::Ld1,
    operation: |size, direction| Operation::Ld1 {
        size,
        direction,
        tile: tile(size),
        offset: OFFSET,
        index: INDEX,
        predicate: PREDICATE,
        base: BASE,
        offset_register: OFFSET_REGISTER,
    },
    zeroes: false,
    strided: Strided::Load,
    goal: goal_of_access,
};

pub const STORE: Sliced = Sliced {
    kind: Kind::St1,
    operation: |size, direction| Operation::St1 {
        size,
        direction,
        tile: tile(size),
        offset: OFFSET,
        index: INDEX,
        predicate: PREDICATE,
        base: BASE,
        offset_register: OFFSET_REGISTER,
    },
    zeroes: false,
    strided: Strided::Store,
    goal: goal_of_access,
};

/// There is only one tile of 1-byte elements; of the others it is tile 1.
fn tile(size: ElementSize) -> u8 {
    u8::from(size != ElementSize::Bits8)
}

/// The same load or store with the stack pointer as its base.
pub fn based_on_stack(access: &Task) -> Task {
    let mut fields = decode_fields(access.word, Settings::MAX_LEVEL).expect("it decodes");
    fields.base = STACK_POINTER;
    Task {
        word: encode_fields(fields).expect("each register can be the base"),
        ..access.clone()
    }
}

/// In what form an operation is timed.
#[derive(Clone, Copy)]
pub struct Form {
    pub vector_bytes: usize,
    pub element_bytes: usize,
    pub direction: Direction,
    pub active: Active,
}

impl Form {
    /// Each size in both directions.
    pub fn all(vector_bytes: usize, active: Active) -> impl Iterator<Item = Form> {
        ELEMENT_BYTES.into_iter().flat_map(move |element_bytes| {
            names::WAYS.map(|(direction, _)| Form {
                vector_bytes,
                element_bytes,
                direction,
                active,
            })
        })
    }

    fn is_vertical(self) -> bool {
        self.direction == Direction::Vertical
    }

    fn way(self) -> &'static str {
        match self.direction {
            Direction::Horizontal => "horizontal",
            Direction::Vertical => "vertical",
        }
    }
}

impl Sliced {
    /// The operation in this form, whose name does not tell what is active.
    pub fn task(&self, form: Form) -> Task {
        let (name, way) = (names::name(self.kind), form.way());
        let size = ElementSize::of_bytes(form.element_bytes as u8).expect("one of the five");
        let operation = (self.operation)(size, form.direction);
        Task {
            name: format!("{name}, m={}, {way}", form.element_bytes),
            kind: format!("{name}, {way}"),
            callee: Callee::Archive,
            word: encode(operation).expect("every form has a word"),
            answer: 0,
            vector_bytes: form.vector_bytes,
            largest: form.vector_bytes,
            element_bytes: form.element_bytes,
            active: form.active,
            prepare: |_| (),
            copied: 1,
            zeroes: self.zeroes,
            strided: form.is_vertical().then_some(self.strided),
            goal: (self.goal)(form),
            part: Part::Words,
        }
    }

    /// The operation in this form, with what is active in its name.
    pub fn under_predicate(&self, form: Form) -> Task {
        let task = self.task(form);
        Task {
            name: format!("{}, {}", task.name, form.active.name()),
            ..task
        }
    }
}

/// For three sizes eight copies for a row, and one and a half strided loops
/// for a column.
fn goal_of_move(form: Form) -> Option<Goal> {
    let goal = if form.is_vertical() {
        Goal::Loops(1.5)
    } else {
        Goal::Copies(8.0)
    };
    [1, 4, 16].contains(&form.element_bytes).then_some(goal)
}

/// For a row of the longest vectors, of small elements: six copies if all
/// elements are active, and twelve if not.
fn goal_of_access(form: Form) -> Option<Goal> {
    let times = if form.active == Active::All {
        6.0
    } else {
        12.0
    };
    let small = [1, 4].contains(&form.element_bytes);
    let has_goal = small && !form.is_vertical() && form.vector_bytes == 256;
    has_goal.then_some(Goal::Copies(times))
}
