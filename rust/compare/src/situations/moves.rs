//! Situations of the moves to vector registers: what they move and what they
//! keep, where the bytes before would tell a mistake.

use super::Situations;
use crate::names::{self, Named, WAYS};
use crate::rows::Drawn;
use crate::view::View;
use second::flat::Flat;
use sme_move::{Direction, Kind};

/// An element of a move from a tile: the slice's bytes, and the register's
/// before the call and after it.
struct Element<'a> {
    active: bool,
    slice: &'a [u8],
    before: &'a [u8],
    after: &'a [u8],
}

impl Element<'_> {
    /// Active, with the slice's bytes after the call and not before it.
    fn moved(&self) -> bool {
        self.active && self.before != self.slice && self.after == self.slice
    }

    /// Inactive, with the bytes of before, which are not the slice's.
    fn kept(&self) -> bool {
        !self.active && self.before != self.slice && self.after == self.before
    }
}

pub fn name(all: &mut Situations, drawn: Drawn) {
    if drawn.has_row(|row| row.kind() == Kind::MovaFromTile) {
        for (direction, way) in WAYS {
            name_from_tile(all, direction, way);
        }
    }
    let forms = [
        ("move from array, two", Kind::MovaFromArray, 2),
        ("move from array, four", Kind::MovaFromArray, 4),
        ("move and zero from array, two", Kind::MovazFromArray, 2),
        ("move and zero from array, four", Kind::MovazFromArray, 4),
    ];
    for (name, kind, vectors) in forms {
        if drawn.has_row(|row| row.kind() == kind && row.vectors == vectors) {
            name_group(all, name, kind, vectors);
        }
    }
}

/// A move from a tile, by direction; with some elements active also by size.
fn name_from_tile(all: &mut Situations, direction: Direction, way: &str) {
    let name = format!("done, move from tile, {way}");
    let own = move |v: &View| {
        let from_tile = |own: &Flat| own.kind() == Kind::MovaFromTile;
        let done = v.operation.filter(|_| v.done());
        done.filter(|own| from_tile(own) && names::direction(own) == direction)
    };
    all.name(format!("{name}, all elements moved"), move |v| {
        own(v).is_some_and(|own| elements(v, &own).iter().all(Element::moved))
    });
    all.name(format!("{name}, all elements kept"), move |v| {
        own(v).is_some_and(|own| elements(v, &own).iter().all(Element::kept))
    });
    for m in [1, 2, 4, 8, 16] {
        let name = format!("{name}, m={m}, some elements moved and some kept");
        all.name(name, move |v| {
            let sized = own(v).filter(|own| own.element_bytes == m);
            let elements = sized.map_or(Vec::new(), |own| elements(v, &own));
            elements.iter().any(Element::moved) && elements.iter().any(Element::kept)
        });
    }
}

/// An array form: no vector of the group is zero before the call, and after
/// it all are or all are as they were; and a group that reaches the end of
/// the array.
fn name_group(all: &mut Situations, name: &str, kind: Kind, vectors: u8) {
    let own = move |v: &View| {
        let form = |own: Flat| own.kind() == kind && own.vectors == vectors;
        v.done() && v.operation.is_some_and(form)
    };
    let zeroes = kind == Kind::MovazFromArray;
    let then = if zeroes { "zero" } else { "as they were" };
    all.name(format!("done, {name}, vectors then {then}"), move |v| {
        let right = |(before, after): (&[u8], &[u8])| {
            let zero = |bytes: &[u8]| bytes.iter().all(|byte| *byte == 0);
            !zero(before) && (if zeroes { zero(after) } else { before == after })
        };
        own(v) && group(v).into_iter().all(right)
    });
    all.name(format!("done, {name}, to the last vector"), move |v| {
        own(v) && v.number() + 1 == v.elements()
    });
}

/// The elements of a move from a tile (document 01, section 3).
fn elements<'a>(v: &'a View, own: &Flat) -> Vec<Element<'a>> {
    let m = usize::from(own.element_bytes);
    let [length, apart] = [v.vector_bytes(), v.largest()].map(|bytes| bytes as usize);
    let element = |e: usize| {
        let register = usize::from(own.first_vector) * apart + e * m;
        Element {
            active: v.active.binary_search(&e).is_ok(),
            slice: &v.case.za[v.place(own, e)],
            before: &v.case.z[register..register + m],
            after: &v.after.z[register..register + m],
        }
    };
    (0..length / m).map(element).collect()
}

/// The vectors of an array form, before the call and after it.
fn group<'a>(v: &'a View) -> Vec<(&'a [u8], &'a [u8])> {
    let [length, apart] = [v.vector_bytes(), v.largest()].map(|bytes| bytes as usize);
    let vectors = (v.number()..v.vector_bytes()).step_by(v.elements() as usize);
    let places = vectors.map(|vector| vector as usize * apart);
    places
        .map(|place| {
            (
                &v.case.za[place..place + length],
                &v.after.za[place..place + length],
            )
        })
        .collect()
}
