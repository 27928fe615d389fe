//! Situations of the settings and of words without an encoding.

use super::Situations;
use crate::generate::settings::{OTHER_LENGTHS, OTHER_LEVELS};
use crate::view::View;
use second::execute::VECTOR_LENGTHS;
use sme_move::{Refusal, Settings};

pub fn name(all: &mut Situations) {
    for length in OTHER_LENGTHS {
        all.name(format!("vector length {length}, 1"), move |v| {
            v.refused(Refusal::BadSettings) && v.case.settings.vector_bytes == length
        });
    }
    name_largest(all);
    for level in OTHER_LEVELS {
        all.name(format!("level {level}, 1"), move |v| {
            v.refused(Refusal::BadSettings) && v.case.settings.level == level
        });
    }
    for level in 0..=3 {
        all.name(format!("no encoding, level {level}, 3"), move |v| {
            v.refused(Refusal::Undecodable)
                && v.case.settings.level == level
                && v.operation.is_none()
        });
    }
    all.name("no encoding and streaming off, 3", |v| {
        v.refused(Refusal::Undecodable) && v.operation.is_none() && !v.case.settings.streaming
    });
    all.name("streaming and ZA off, 4", |v| {
        v.refused(Refusal::StreamingOff) && !v.case.settings.za_on
    });
}

/// Largest vector lengths that are none, and those below the vector length.
fn name_largest(all: &mut Situations) {
    for length in OTHER_LENGTHS {
        let name = format!("largest vector length {length}, only that wrong, 1");
        all.name(name, move |v| {
            only_lengths_wrong(v)
                && VECTOR_LENGTHS.contains(&v.vector_bytes())
                && v.largest() == length
        });
    }
    for length in &VECTOR_LENGTHS[1..] {
        let name = format!("largest vector length below {length}, only that wrong, 1");
        all.name(name, move |v| {
            only_lengths_wrong(v)
                && v.vector_bytes() == *length
                && v.largest() < *length
                && VECTOR_LENGTHS.contains(&v.largest())
        });
    }
}

/// Whether a case is answered 1 for a vector length and not for the level.
fn only_lengths_wrong(v: &View) -> bool {
    v.refused(Refusal::BadSettings) && v.case.settings.level <= Settings::MAX_LEVEL
}
