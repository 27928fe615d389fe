//! Situations of loads and stores: where they go, what they are refused for,
//! and the two meanings of number 31.

use super::faults::{FAULTS, FAULTS_OF_WIDE};
use super::Situations;
use crate::names::{self, on_or_off, Answer, Named, ACCESSES, FAULT, WAYS};
use crate::rows::Drawn;
use crate::view::View;
use second::flat::Flat;
use sme_move::{Kind, Refusal};

/// One past the last address.
const ADDRESSES: u128 = 1 << 64;

const MISALIGNED: Answer = Err(Refusal::StackMisaligned);
/// The answers that come before 6, with the stack check on or off.
const EARLIER: [Answer; 5] = [
    Err(Refusal::BadSettings),
    Err(Refusal::BadLengths),
    Err(Refusal::Undecodable),
    Err(Refusal::StreamingOff),
    Err(Refusal::ZaOff),
];

/// A test of a case that has the load or store in question.
pub type Holds = fn(&View) -> bool;
/// A test of a load or store.
type Has = fn(Flat) -> bool;
/// A test of an element of a case's slice.
type HoldsAt = fn(&View, usize) -> bool;

/// With an active element, or where it is said with none.
const DONE: [(&str, Holds); 10] = [
    ("all elements active", |v| {
        v.active.len() as u64 == v.elements()
    }),
    ("no element active", |v| v.active.is_empty()),
    ("an inactive element outside memory", |v| {
        !v.active.is_empty() && (0..v.elements() as usize).any(|e| !v.in_memory(e))
    }),
    ("to the first byte of memory", |v| {
        v.first_address() == Some(v.memory_start())
    }),
    ("to the last byte of memory", |v| {
        v.last_address().map(|last| last + 1) == Some(v.memory_end())
    }),
    ("memory from address 0", |v| {
        !v.active.is_empty() && v.memory_start() == 0
    }),
    ("memory up to 2^64", |v| {
        !v.active.is_empty() && v.memory_end() == ADDRESSES
    }),
    ("addresses wrap at 2^64", |v| v.wraps()),
    ("an address that is not aligned", |v| {
        !v.active.is_empty() && v.start() % 16 != 0
    }),
    ("memory of length 0", |v| v.case.memory.is_empty()),
];

pub fn name(all: &mut Situations, drawn: Drawn) {
    for kind in ACCESSES {
        if !drawn.has_row(|row| row.kind() == kind) {
            continue;
        }
        let name = names::name(kind);
        for m in [1, 2, 4, 8, 16] {
            if drawn.has_row(|row| row.kind() == kind && row.element_bytes == m) {
                name_sized(all, &format!("{name}, m={m}"), kind, m);
            }
        }
        name_stack_pointer(all, name, kind);
        name_registers(all, name, kind);
    }
    if drawn.has_row(|row| row.kind() == Kind::Ld1) {
        name_zeroed(all);
    }
}

/// A load or store of one size.
fn name_sized(all: &mut Situations, name: &str, kind: Kind, m: u8) {
    let own = move |v: &View, answer: Answer| {
        let sized = |own: Flat| own.kind() == kind && own.element_bytes == m;
        v.answered(answer) && v.access().is_some_and(sized)
    };
    for (what, holds) in DONE {
        all.name(format!("{name}, done, {what}"), move |v| {
            own(v, Ok(())) && holds(v)
        });
    }
    all.name(format!("{name}, 6"), move |v| own(v, MISALIGNED));
    for (what, answer) in [("done", Ok(())), ("fault", Err(FAULT))] {
        let name = format!("{name}, {what}, by a misaligned stack pointer");
        all.name(name, move |v| own(v, answer) && v.stack_misaligned());
    }
    for (what, holds) in FAULTS {
        all.name(format!("{name}, fault, {what}"), move |v| {
            own(v, Err(FAULT)) && holds(v)
        });
    }
    if m > 1 {
        for (what, holds) in FAULTS_OF_WIDE {
            all.name(format!("{name}, fault, {what}"), move |v| {
                own(v, Err(FAULT)) && holds(v)
            });
        }
        all.name(format!("{name}, done, offset times m wraps"), move |v| {
            own(v, Ok(())) && !v.active.is_empty() && v.product() >= ADDRESSES
        });
    }
}

/// The stack pointer as base, aligned or not, with an active element or none,
/// with the stack check on and off.
fn name_stack_pointer(all: &mut Situations, name: &str, kind: Kind) {
    for stack_check in [true, false] {
        for (alignment, aligned) in [("aligned", true), ("not aligned", false)] {
            for (elements, active) in [("an active element", true), ("no active element", false)] {
                let stack = on_or_off(stack_check);
                let what = format!("{alignment}, {elements}, stack check {stack}");
                for answer in answers_on_stack(stack_check, aligned, active) {
                    let number = names::number(answer);
                    let name = format!("{name}, stack pointer {what}, {number}");
                    all.name(name, move |v| {
                        v.access().is_some_and(|own| own.kind() == kind)
                            && v.base() == Some(31)
                            && v.case.settings.stack_check == stack_check
                            && v.aligned() == aligned
                            && v.active.is_empty() != active
                            && v.answered(answer)
                    });
                }
            }
        }
    }
}

/// What such a load or store can be answered. Where 6 is at stake those before
/// it are to be met too: a check that is made too early would hide them.
fn answers_on_stack(stack_check: bool, aligned: bool, active: bool) -> Vec<Answer> {
    match (active, aligned) {
        (false, _) => vec![Ok(())],
        (true, true) => vec![Ok(()), Err(FAULT)],
        (true, false) if stack_check => [&EARLIER[..], &[MISALIGNED]].concat(),
        (true, false) => [&EARLIER[..], &[Ok(()), Err(FAULT)]].concat(),
    }
}

fn name_registers(all: &mut Situations, name: &str, kind: Kind) {
    let registers: [(&str, Has); 6] = [
        ("base 31 and offset 31", |own| {
            own.base == 31 && own.offset_register == 31
        }),
        ("base 31, another offset", |own| {
            own.base == 31 && own.offset_register != 31
        }),
        ("offset 31, another base", |own| {
            own.base != 31 && own.offset_register == 31
        }),
        ("base and offset the same, not 31", |own| {
            own.base == own.offset_register && own.base != 31
        }),
        ("base is the index register", |own| own.base == own.index),
        ("offset is the index register", |own| {
            own.offset_register == own.index
        }),
    ];
    for (what, holds) in registers {
        all.name(format!("{name}, done, {what}"), move |v| {
            let own = |own: Flat| own.kind() == kind && holds(own);
            v.done() && !v.active.is_empty() && v.access().is_some_and(own)
        });
    }
}

/// Inactive elements of a load that were not zero and are after it: before,
/// between and after the active ones, and all.
fn name_zeroed(all: &mut Situations) {
    let places: [(&str, HoldsAt); 4] = [
        ("before the active ones", |v, e| {
            v.active.first().is_some_and(|first| e < *first)
        }),
        ("between the active ones", |v, e| {
            v.active.iter().any(|own| *own < e) && v.active.iter().any(|own| e < *own)
        }),
        ("after the active ones", |v, e| {
            v.active.last().is_some_and(|last| *last < e)
        }),
        ("with none active", |v, _| v.active.is_empty()),
    ];
    for (direction, way) in WAYS {
        for (what, place) in places {
            for m in [1, 2, 4, 8, 16] {
                let name = format!("load, m={m}, done, {way}, an element zeroed {what}");
                all.name(name, move |v| {
                    let own = |own: &Flat| own.kind() == Kind::Ld1 && own.element_bytes == m;
                    let own = v.operation.filter(|_| v.done()).filter(own);
                    own.filter(|own| names::direction(own) == direction)
                        .is_some_and(|own| zeroed(v, &own).any(|e| place(v, e)))
                });
            }
        }
    }
}

/// The elements of the slice that were not zero before the call and are
/// after it.
fn zeroed<'a>(v: &'a View, own: &Flat) -> impl Iterator<Item = usize> + 'a {
    let own = *own;
    let zero = |bytes: &[u8]| bytes.iter().all(|byte| *byte == 0);
    (0..v.elements() as usize).filter(move |&e| {
        let place = v.place(&own, e);
        !zero(&v.case.za[place.clone()]) && zero(&v.after.za[place])
    })
}
