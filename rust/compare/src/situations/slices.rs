//! Situations of the slice number and the governing predicate.

use super::Situations;
use crate::names::{self, Named, WAYS};
use crate::rows::Drawn;
use crate::view::View;
use second::flat::Flat;
use sme_move::Kind;

pub fn name(all: &mut Situations, drawn: Drawn) {
    name_directions(all, drawn);
    name_indexes(all);
    name_predicates(all);
}

fn name_directions(all: &mut Situations, drawn: Drawn) {
    let mut kinds = vec![
        Kind::MovaToTile,
        Kind::MovazFromTile,
        Kind::St1,
        Kind::MovaFromTile,
        Kind::Ld1,
    ];
    kinds.retain(|&kind| drawn.has_row(|row| row.kind() == kind));
    for kind in kinds {
        for (direction, way) in WAYS {
            let name = names::name(kind);
            all.name(format!("done, {name}, {way}"), move |v| {
                let own = |own: Flat| own.kind() == kind && names::direction(&own) == direction;
                v.done() && v.operation.is_some_and(own)
            });
        }
    }
}

fn name_indexes(all: &mut Situations) {
    all.name("done, W + offset at 2^32 or above", |v| {
        v.done() && v.index_sum() >= 1 << 32
    });
    all.name("done, W + offset below 2^32, not below n", |v| {
        v.done() && v.index_sum() < 1 << 32 && v.index_sum() >= v.elements()
    });
    all.name("done, W + offset below n", |v| {
        v.done() && v.index_sum() < v.elements()
    });
}

fn name_predicates(all: &mut Situations) {
    let done = |v: &View| v.done() && v.predicated();
    all.name("done, all elements active", move |v| {
        done(v) && v.active.len() as u64 == v.elements()
    });
    all.name("done, all elements active and no other bit set", move |v| {
        let bits: u32 = v.predicate().iter().map(|byte| byte.count_ones()).sum();
        let all = v.active.len() as u64 == v.elements();
        done(v) && all && u64::from(bits) == v.elements() && v.elements() < v.vector_bytes()
    });
    for step in [2, 8] {
        let name = format!("done, one of every {step} elements active");
        all.name(name, move |v| done(v) && stepped(v, step));
    }
    all.name("done, one element of several active", move |v| {
        done(v) && v.active.len() == 1 && v.elements() > 1
    });
    all.name("done, some elements active", move |v| {
        done(v) && v.active.len() > 1 && (v.active.len() as u64) < v.elements()
    });
    all.name("done, predicate without any bit", move |v| {
        done(v) && v.predicate().iter().all(|byte| *byte == 0)
    });
    all.name("done, no element active but other bits set", move |v| {
        done(v) && v.active.is_empty() && v.predicate().iter().any(|byte| *byte != 0)
    });
}

/// Whether one of every `step` elements is active, of `step` or more, and it
/// is always the same.
fn stepped(v: &View, step: usize) -> bool {
    let (elements, Some(&first)) = (v.elements() as usize, v.active.first()) else {
        return false;
    };
    let wanted = (first..elements).step_by(step);
    first < step && elements >= step && wanted.eq(v.active.iter().copied())
}
