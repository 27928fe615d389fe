//! Situations of long memory: what a unit would get wrong that refuses it,
//! or that has too few bits for its length or for a byte's number in it.

use super::buffers::fixed_lengths;
use super::Situations;
use crate::names::{self, is_access, Answer, Named, ACCESSES, FAULT, WAYS};
use crate::rows::Drawn;
use crate::view::View;
use second::flat::Flat;
use sme_move::{Kind, Refusal};
use std::ops::RangeInclusive;

/// A test of a case that has the load or store in question, done or refused
/// with 7.
type Holds = fn(&View) -> bool;

/// One past the last address.
const ADDRESSES: u128 = 1 << 64;
/// The first number that does not have 12 bits, and the first that does not
/// have 16.
const FAR: usize = 1 << 12;
const FARTHER: usize = 1 << 16;

const LENGTHS: [(&str, RangeInclusive<usize>); 3] = [
    ("1 KiB to 4 KiB", 1 << 10..=FAR),
    ("over 4 KiB to 64 KiB", FAR + 1..=FARTHER),
    ("over 64 KiB to 1 MiB", FARTHER + 1..=1 << 20),
];

/// Where an access is done, in memory of over 64 KiB. An element is active.
const DONE: [(&str, Holds); 6] = [
    ("from before byte 65,536 to behind it", |v| {
        first_byte(v) < FARTHER && last_byte(v) > FARTHER
    }),
    ("from before byte 4,096 to behind it", |v| {
        first_byte(v) < FAR && last_byte(v) > FAR
    }),
    ("to the first byte", |v| first_byte(v) == 0),
    ("in the middle half", |v| {
        let quarter = v.case.memory.len() / 4;
        first_byte(v) >= quarter && last_byte(v) < 3 * quarter
    }),
    ("to the last byte", |v| {
        last_byte(v) + 1 == v.case.memory.len()
    }),
    ("with an inactive element behind the last byte", |v| {
        let last = v.ends(v.elements() as usize - 1).1;
        last >= v.memory_end()
    }),
];

/// Where an access in memory of over 64 KiB is refused with 7.
const FAULTS: [(&str, Holds); 3] = [
    ("at the byte behind the last", |v| {
        u128::from(v.address) == v.memory_end()
    }),
    ("after an active element at its end", |v| {
        let before = v.active.first().is_some_and(|&e| v.in_memory(e));
        before && u128::from(v.address) >= v.memory_end()
    }),
    ("before the first byte", |v| {
        u128::from(v.address) < v.memory_start()
    }),
];

pub fn name(all: &mut Situations, drawn: Drawn) {
    for kind in ACCESSES {
        let name = names::name(kind);
        for m in [1, 2, 4, 8, 16] {
            if drawn.has_row(|row| row.kind() == kind && row.element_bytes == m) {
                name_lengths(all, &format!("{name}, m={m}"), kind, m);
            }
        }
        if drawn.has_row(|row| row.kind() == kind) {
            name_places(all, name, kind);
            name_ways(all, name, kind);
        }
    }
    if drawn.has_row(|row| !is_access(row.kind())) {
        name_moves(all);
    }
    name_ends(all);
}

/// A load or store of one size, done and refused with 7, by the length of
/// memory; and done where a byte's number has more than 16 bits.
fn name_lengths(all: &mut Situations, name: &str, kind: Kind, m: u8) {
    let own = move |v: &View, answer: Answer| {
        answered(v, kind, answer) && v.access().is_some_and(|own| own.element_bytes == m)
    };
    for (length, bytes) in LENGTHS {
        for (what, answer) in [("done", Ok(())), ("fault", Err(FAULT))] {
            let bytes = bytes.clone();
            let name = format!("{name}, {what}, memory of {length}");
            all.name(name, move |v| {
                bytes.contains(&v.case.memory.len()) && own(v, answer)
            });
        }
    }
    let name = format!("{name}, done, from byte 65,536 of memory on");
    all.name(name, move |v| {
        over_64_kib(v) && own(v, Ok(())) && first_byte(v) >= FARTHER
    });
}

fn name_places(all: &mut Situations, name: &str, kind: Kind) {
    for (what, holds) in DONE {
        let name = format!("{name}, done, memory of over 64 KiB, {what}");
        all.name(name, move |v| {
            over_64_kib(v) && answered(v, kind, Ok(())) && holds(v)
        });
    }
    for (what, holds) in FAULTS {
        let name = format!("{name}, fault, memory of over 64 KiB, {what}");
        all.name(name, move |v| {
            over_64_kib(v) && answered(v, kind, Err(FAULT)) && holds(v)
        });
    }
}

/// Both directions, with all elements active and with some.
fn name_ways(all: &mut Situations, name: &str, kind: Kind) {
    for (direction, way) in WAYS {
        for (whole, active) in [(true, "all"), (false, "some")] {
            let name = format!(
                "{name}, done, {way}, {active} elements active, from byte 65,536 of memory on"
            );
            all.name(name, move |v| {
                let own = |own: Flat| names::direction(&own) == direction;
                over_64_kib(v)
                    && answered(v, kind, Ok(()))
                    && v.access().is_some_and(own)
                    && (v.active.len() as u64 == v.elements()) == whole
                    && first_byte(v) >= FARTHER
            });
        }
    }
}

/// A move does not look at memory, however long it is.
fn name_moves(all: &mut Situations) {
    for (length, bytes) in LENGTHS {
        all.name(format!("move, done, memory of {length}"), move |v| {
            let moves = v.done() && v.access().is_none();
            bytes.contains(&v.case.memory.len()) && moves
        });
    }
}

/// Memory of over 64 KiB that ends at 2^64, and one that ends above.
fn name_ends(all: &mut Situations) {
    all.name("memory of over 64 KiB ends at 2^64, done", |v| {
        over_64_kib(v) && v.done() && v.memory_end() == ADDRESSES
    });
    let name = "memory of over 64 KiB ends above 2^64, only that wrong, 2";
    all.name(name, |v| {
        over_64_kib(v)
            && v.refused(Refusal::BadLengths)
            && v.memory_end() > ADDRESSES
            && fixed_lengths(v)
    });
}

fn over_64_kib(v: &View) -> bool {
    v.case.memory.len() > FARTHER
}

/// Whether a load or store with an active element got this answer.
fn answered(v: &View, kind: Kind, answer: Answer) -> bool {
    let own = |own: Flat| own.kind() == kind;
    v.answered(answer) && !v.active.is_empty() && v.access().is_some_and(own)
}

/// The number in memory of the first byte of a done load or store that is
/// active.
fn first_byte(v: &View) -> usize {
    number(v, v.first_address())
}

/// The number of the last one.
fn last_byte(v: &View) -> usize {
    number(v, v.last_address())
}

fn number(v: &View, address: Option<u128>) -> usize {
    address.map_or(0, |own| (own - v.memory_start()) as usize)
}
