//! All lines of the table, by vector length.

pub mod arrays;
mod cliffs;
pub mod long;
pub mod predicates;
mod refusals;
pub mod sliced;
#[cfg(test)]
mod tests;

use crate::active::{Active, USUAL};
use crate::task::{Callee, Task};
use sliced::{Form, FROM_TILE, LOAD, STORE, TO_TILE, ZEROING_FROM_TILE};
use sme_move::Direction;

pub const VECTOR_LENGTHS: [usize; 5] = [16, 32, 64, 128, 256];

/// The lines of a vector length, in groups: those of a group are timed in
/// turns, and all but its first are set beside the first.
pub fn groups(vector_bytes: usize) -> Vec<Vec<Task>> {
    let mut groups = vec![vec![empty_call(vector_bytes)]];
    let alone = |task: Task| vec![task];
    for sliced in [TO_TILE, FROM_TILE, LOAD, STORE] {
        for active in USUAL {
            let forms = Form::all(vector_bytes, active).filter(|&form| !predicates::is_timed(form));
            groups.extend(forms.map(|form| alone(sliced.under_predicate(form))));
        }
    }
    groups.extend(predicates::groups(vector_bytes));
    let zeroing = |form| alone(ZEROING_FROM_TILE.task(form));
    groups.extend(Form::all(vector_bytes, Active::All).map(zeroing));
    groups.extend(arrays::tasks(vector_bytes).into_iter().map(alone));
    groups.extend(cliffs::groups(vector_bytes));
    groups.extend(refusals::tasks(vector_bytes).into_iter().map(alone));
    groups.into_iter().map(long::beside).collect()
}

/// What any call takes, whatever is called.
fn empty_call(vector_bytes: usize) -> Task {
    let form = Form {
        vector_bytes,
        element_bytes: 1,
        direction: Direction::Horizontal,
        active: Active::All,
    };
    Task {
        name: "empty call".to_string(),
        kind: "empty call".to_string(),
        callee: Callee::Nothing,
        copied: 0,
        goal: None,
        ..TO_TILE.task(form)
    }
}
