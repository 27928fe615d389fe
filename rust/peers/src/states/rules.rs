//! Where a known fault of the emulator shows, agreement with it would be
//! wrong. There the unit is held to the sentences of document 01 and its
//! amendments (docs/RULES.md) themselves.

use super::faults::without_top_byte;
use compare::names::{Named, FAULT};
use compare::view::View;
use sme_move::{Kind, Refusal};

/// Whether the unit did what the documents say where the emulator is known to
/// do otherwise.
pub fn hold(view: &View) -> bool {
    let gone_on = view.done() || view.refused(Refusal::StackMisaligned) || view.refused(FAULT);
    if !gone_on || view.access().is_none() {
        return true;
    }
    let misaligned = stack_misaligned(view);
    if view.refused(Refusal::StackMisaligned) != misaligned {
        return false;
    }
    let elsewhere = tagged(view) && !misaligned;
    (!elsewhere || outside_at_once(view)) && inactive_zero(view)
}

/// Answer 6: the stack check is on and refuses the stack pointer. With the
/// check off the unit must do what the emulator does, which has none.
pub fn stack_misaligned(view: &View) -> bool {
    view.case.settings.stack_check && view.stack_misaligned()
}

/// Whether the emulator takes the access to be elsewhere. An element's number
/// never changes the top byte of an address that is drawn.
pub fn tagged(view: &View) -> bool {
    let start = view.start() as u64;
    view.access().is_some() && without_top_byte(start) != start
}

/// Memory has addresses without a top byte: the first active element of an
/// access with one is outside.
fn outside_at_once(view: &View) -> bool {
    match view.first_address() {
        Some(address) => view.refused(FAULT) && u128::from(view.address) == address,
        None => view.done(),
    }
}

/// A load that is done leaves zero in the inactive elements of its slice.
fn inactive_zero(view: &View) -> bool {
    let Some(operation) = view.operation.filter(|own| own.kind() == Kind::Ld1) else {
        return true;
    };
    let zero = |e: usize| {
        let bytes = &view.after.za[view.place(&operation, e)];
        bytes.iter().all(|&byte| byte == 0)
    };
    !view.done() || (0..view.elements() as usize).all(|e| view.active.contains(&e) || zero(e))
}
