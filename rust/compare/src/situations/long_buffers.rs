//! Situations of buffers for longer vectors: what a unit would get wrong that
//! takes the bytes beyond the vector length for bytes of a vector, or the one
//! length for the other.

use super::Situations;
use crate::beyond::Beyond;
use crate::names::{self, Named, WAYS};
use crate::pairs::{Pair, PAIRS};
use crate::rows::Drawn;
use crate::view::View;
use second::flat::Flat;
use sme_move::{Kind, Refusal};

/// A test of a case with bytes beyond the vector length.
type Holds = fn(&View) -> bool;

/// Which lengths are those that the vector length would fix.
const SHORT: [(&str, Holds); 4] = [
    ("Z", |v| short(v) == [true, false, false]),
    ("P", |v| short(v) == [false, true, false]),
    ("ZA", |v| short(v) == [false, false, true]),
    ("Z, P and ZA", |v| short(v) == [true; 3]),
];

/// What stands in the governing predicate within the vector length and beyond
/// it.
const PREDICATES: [(&str, Holds); 4] = [
    ("no element active, all bits beyond set", |v| {
        v.active.is_empty() && beyond(v).iter().all(|byte| *byte == 0xFF)
    }),
    ("all elements active, no bit beyond set", |v| {
        v.active.len() as u64 == v.elements() && beyond(v).iter().all(|byte| *byte == 0)
    }),
    ("some elements active, all bits beyond set", |v| {
        !v.active.is_empty() && beyond(v).iter().all(|byte| *byte == 0xFF)
    }),
    ("some elements active, some bits beyond set", |v| {
        let ones: u32 = beyond(v).iter().map(|byte| byte.count_ones()).sum();
        !v.active.is_empty() && ones > 0 && ones < 8 * beyond(v).len() as u32
    }),
];

pub fn name(all: &mut Situations, drawn: Drawn) {
    for (buffers, holds) in SHORT {
        let name = format!("{buffers} as the vector length would fix, only that wrong, 2");
        all.name(name, move |v| {
            v.refused(Refusal::BadLengths) && is_long(v) && holds(v)
        });
    }
    for kind in [Kind::MovaToTile, Kind::MovaFromTile, Kind::St1, Kind::Ld1] {
        if drawn.has_row(|row| row.kind() == kind) {
            name_predicates(all, kind);
        }
    }
    for pair in PAIRS.into_iter().filter(|pair| pair.is_long()) {
        name_places(all, pair);
    }
}

fn name_predicates(all: &mut Situations, kind: Kind) {
    for (what, holds) in PREDICATES {
        let name = format!("done, {}, long buffers, {what}", names::name(kind));
        all.name(name, move |v| {
            let own = |own: Flat| own.kind() == kind;
            v.done() && is_long(v) && v.operation.is_some_and(own) && holds(v)
        });
    }
}

/// Slices of both directions and groups that the largest vector length would
/// give another number, by pair.
fn name_places(all: &mut Situations, pair: Pair) {
    let own =
        move |v: &View| v.done() && Pair::number(&v.case.settings).map(|n| PAIRS[n]) == Some(pair);
    for (direction, way) in WAYS {
        all.name(format!("done, {pair}, another {way} slice"), move |v| {
            let sliced = |own: Flat| own.element_bytes > 0 && names::direction(&own) == direction;
            own(v) && v.operation.is_some_and(sliced) && elsewhere(v)
        });
    }
}

/// Whether the index, taken modulo what the largest length would have it,
/// comes to another slice.
fn elsewhere(v: &View) -> bool {
    let parts = v.vector_bytes() / v.elements();
    v.index_sum() % (v.largest() / parts) != v.number()
}

fn is_long(v: &View) -> bool {
    Beyond::of(&v.case.settings).is_some()
}

/// Of which of Z, P and ZA the length is the one that the vector length would
/// fix. X and memory are as they must be.
fn short(v: &View) -> [bool; 3] {
    let (own, right) = (v.vector_bytes() as usize, v.largest() as usize);
    let case = v.case;
    let others = case.x.len() == 32 && v.memory_end() <= 1 << 64;
    let lengths = [
        (case.z.len(), 32 * own, 32 * right),
        (case.p.len(), 2 * own, 2 * right),
        (case.za.len(), own * own, right * right),
    ];
    let each = |(found, own, right)| found == own || found == right;
    if !others || !lengths.into_iter().all(each) {
        return [false; 3];
    }
    lengths.map(|(found, own, _)| found == own)
}

/// The bytes of the governing predicate beyond the vector length.
fn beyond<'a>(v: &'a View) -> &'a [u8] {
    let register = v.operation.map_or(0, |own| usize::from(own.predicate));
    let [within, apart] = [v.vector_bytes(), v.largest()].map(|bytes| bytes as usize / 8);
    let first = register * apart;
    &v.case.p[first + within..first + apart]
}
