//! Situations of the buffers' lengths.

use super::Situations;
use crate::view::View;
use sme_move::Refusal;

/// The buffers whose length the largest vector length fixes, and that length.
const FIXED: [(&str, Length, Length); 4] = [
    ("X", |v| v.case.x.len() as u64, |_| 32),
    ("Z", |v| v.case.z.len() as u64, |v| 32 * v.largest()),
    ("P", |v| v.case.p.len() as u64, |v| 2 * v.largest()),
    (
        "ZA",
        |v| v.case.za.len() as u64,
        |v| v.largest() * v.largest(),
    ),
];

type Length = fn(&View) -> u64;

pub fn name(all: &mut Situations) {
    for (buffer, own, right) in FIXED {
        all.name(format!("{buffer} one too short, 2"), move |v| {
            v.refused(Refusal::BadLengths) && own(v) + 1 == right(v)
        });
        all.name(format!("{buffer} one too long, 2"), move |v| {
            v.refused(Refusal::BadLengths) && own(v) == right(v) + 1
        });
        all.name(format!("{buffer} empty, 2"), move |v| {
            v.refused(Refusal::BadLengths) && own(v) == 0
        });
    }
    name_memory_ends(all);
}

fn name_memory_ends(all: &mut Situations) {
    const LAST: u128 = 1 << 64;
    all.name("memory ends at 2^64 - 1, done", |v| {
        v.done() && v.memory_end() == LAST - 1
    });
    all.name("memory ends at 2^64, done", |v| {
        v.done() && v.memory_end() == LAST
    });
    all.name("memory ends at 2^64 + 1, only that wrong, 2", |v| {
        v.refused(Refusal::BadLengths) && v.memory_end() == LAST + 1 && fixed_lengths(v)
    });
}

pub fn fixed_lengths(v: &View) -> bool {
    FIXED.iter().all(|(_, own, right)| own(v) == right(v))
}
