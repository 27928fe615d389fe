//! Rows of the longest vectors under many predicates: those of one operation
//! and one size are timed in turns, and each stands beside the one with all
//! elements active. So it shows what a predicate costs.

use super::sliced::{Form, Sliced, FROM_TILE, LOAD, STORE, TO_TILE};
use crate::active::{Active, USUAL};
use crate::pair::Pair;
use crate::row::{Goal, Part};
use crate::task::Task;
use compare::names;
use sme_move::Direction;

const VECTOR_BYTES: usize = 256;

/// Small, middle and large.
const ELEMENT_BYTES: [usize; 3] = [1, 4, 16];

/// The others stand beside the first.
const PREDICATES: [Active; 7] = [
    Active::All,
    Active::Alternating,
    Active::None,
    Active::Prefix,
    Active::WholeAndEmpty,
    Active::WholeAndHalf,
    Active::Random,
];

/// Of a move with all elements active, which is a copy of the whole row.
const GOAL_OF_ALL: Goal = Goal::Copies(5.5);
/// Of a move with no element active: looking for one is not to cost much more
/// than moving all.
const GOAL_OF_NONE: Goal = Goal::Beside(1.2);
/// A move of all bytes is to take at most so much of the time of a move of
/// every second, which cannot be copied as a whole.
const ALL_OVER_ALTERNATING: f64 = 0.6;

/// A group for each operation and size, if the vectors are the longest.
pub fn groups(vector_bytes: usize) -> Vec<Vec<Task>> {
    if vector_bytes != VECTOR_BYTES {
        return Vec::new();
    }
    let mut groups = Vec::new();
    for sliced in [TO_TILE, FROM_TILE, LOAD, STORE] {
        for element_bytes in ELEMENT_BYTES {
            let task = |active| task(sliced, row(element_bytes, active));
            groups.push(PREDICATES.map(task).to_vec());
        }
    }
    groups
}

/// Whether such a form is timed here, so that it is not to be timed again.
pub fn is_timed(form: Form) -> bool {
    form.vector_bytes == VECTOR_BYTES
        && form.direction == Direction::Horizontal
        && ELEMENT_BYTES.contains(&form.element_bytes)
        && PREDICATES.contains(&form.active)
}

/// Moves of all bytes over moves of every second one.
pub fn pairs() -> [Pair; 2] {
    [TO_TILE, FROM_TILE].map(|sliced| {
        let [all, alternating] = [Active::All, Active::Alternating].map(|active| row(1, active));
        let operation = sliced.task(all).name;
        Pair {
            name: format!("all over alternating, {operation}"),
            lines: [all, alternating].map(|form| sliced.under_predicate(form).name),
            vector_bytes: VECTOR_BYTES,
            most: ALL_OVER_ALTERNATING,
            part: Part::Predicates,
        }
    })
}

fn row(element_bytes: usize, active: Active) -> Form {
    Form {
        vector_bytes: VECTOR_BYTES,
        element_bytes,
        direction: Direction::Horizontal,
        active,
    }
}

fn task(sliced: Sliced, form: Form) -> Task {
    let task = sliced.under_predicate(form);
    let is_move = !names::is_access(sliced.kind);
    Task {
        goal: match form.active {
            Active::All if is_move => Some(GOAL_OF_ALL),
            Active::None if is_move => Some(GOAL_OF_NONE),
            // The usual predicates keep the goal that they have at other lengths.
            usual if USUAL.contains(&usual) => task.goal,
            _ => None,
        },
        part: Part::Predicates,
        ..task
    }
}
