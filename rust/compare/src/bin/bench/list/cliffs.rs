//! Calls that might be much slower than others like them: loads and stores
//! where memory ends or begins inside the vector, each beside the same call
//! with room to spare; columns of which one large element is active; and what
//! has to look at the whole predicate to find that no element is: columns
//! under stray bits, and loads and stores whose base is a misaligned stack
//! pointer, which are done because no element is active.

use super::sliced::{based_on_stack, Form, Sliced, FROM_TILE, LOAD, STORE, TO_TILE};
use crate::active::Active;
use crate::machine::Machine;
use crate::row::Goal;
use crate::task::Task;
use sme_move::Direction;

/// Memory that ends inside may cost so many times the call with room.
const GOAL: Goal = Goal::Beside(5.0);

/// Pairs with room and without, and single columns and rows.
pub fn groups(vector_bytes: usize) -> Vec<Vec<Task>> {
    let mut groups = Vec::new();
    for sliced in [LOAD, STORE] {
        let first = forms(vector_bytes, Active::FirstHalf);
        groups.extend(first.map(|form| ending_inside(task(sliced, form))));
        let last = forms(vector_bytes, Active::LastHalf);
        groups.extend(last.map(|form| beginning_inside(task(sliced, form))));
    }
    for sliced in [TO_TILE, FROM_TILE, LOAD, STORE] {
        let columns = columns(vector_bytes);
        groups.extend(columns.map(|form| vec![task(sliced, form)]));
    }
    for sliced in [LOAD, STORE] {
        let rows = inactive_rows(vector_bytes);
        groups.extend(rows.map(|form| vec![misaligned(task(sliced, form))]));
    }
    groups
}

/// The call with room to spare, which has no goal here.
fn task(sliced: Sliced, form: Form) -> Task {
    Task {
        goal: None,
        ..sliced.under_predicate(form)
    }
}

fn ending_inside(room: Task) -> Vec<Task> {
    let ends = Task {
        goal: Some(GOAL),
        ..room.changed("memory ends inside", Machine::end_memory_inside)
    };
    vec![room, ends]
}

fn beginning_inside(room: Task) -> Vec<Task> {
    let begins = room.changed("memory begins inside", Machine::begin_memory_inside);
    vec![room, begins]
}

/// The stack pointer is the base register, and no multiple of 16.
fn misaligned(access: Task) -> Task {
    based_on_stack(&access).changed("stack misaligned", Machine::misalign_stack)
}

/// Columns of which one large element is active, and those under stray bits.
fn columns(vector_bytes: usize) -> impl Iterator<Item = Form> {
    let last = forms(vector_bytes, Active::Last);
    let large = last.filter(|form| form.element_bytes == 16);
    large
        .chain(stray(vector_bytes))
        .filter(|form| form.direction == Direction::Vertical)
}

/// Rows of which no element is active.
fn inactive_rows(vector_bytes: usize) -> impl Iterator<Item = Form> {
    let none = Form::all(vector_bytes, Active::None);
    none.chain(stray(vector_bytes))
        .filter(|form| form.direction == Direction::Horizontal)
}

/// The forms in which there are bits that no element goes by.
fn stray(vector_bytes: usize) -> impl Iterator<Item = Form> {
    let forms = Form::all(vector_bytes, Active::Stray);
    forms.filter(|form| form.element_bytes > 1)
}

/// The forms in which a vector has two elements or more: one element has no
/// half that is in memory, and is both the last and all.
fn forms(vector_bytes: usize, active: Active) -> impl Iterator<Item = Form> {
    let forms = Form::all(vector_bytes, active);
    forms.filter(|form| form.vector_bytes > form.element_bytes)
}
