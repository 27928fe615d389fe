//! The bytes beyond the vector length in buffers for a longer one. No call
//! may change them, and nothing may depend on them.

use crate::case::{Case, Outcome};
use crate::pairs::{Pair, PAIRS};
use second::execute::Settings;
use std::ops::Range;

/// Where these bytes are.
#[derive(Clone, Copy)]
pub struct Beyond {
    vector_bytes: usize,
    largest: usize,
}

impl Beyond {
    /// None where settings have no such bytes, or none of the pairs that are
    /// allowed.
    pub fn of(settings: &Settings) -> Option<Beyond> {
        let pair = PAIRS[Pair::number(settings)?];
        pair.is_long().then_some(Beyond {
            vector_bytes: pair.vector_bytes as usize,
            largest: pair.largest as usize,
        })
    }

    /// In Z: behind the bytes of each register.
    fn in_z(self, z: &[u8]) -> impl Iterator<Item = Range<usize>> {
        places(z.len(), self.largest, move |_| self.vector_bytes)
    }

    /// In P: the same, of an eighth of the length.
    fn in_p(self, p: &[u8]) -> impl Iterator<Item = Range<usize>> {
        places(p.len(), self.largest / 8, move |_| self.vector_bytes / 8)
    }

    /// In ZA: behind the bytes of each vector that has a number below the
    /// vector length, and all of the others.
    fn in_za(self, za: &[u8]) -> impl Iterator<Item = Range<usize>> {
        let bytes = self.vector_bytes;
        places(za.len(), self.largest, move |number| {
            if number < bytes {
                bytes
            } else {
                0
            }
        })
    }

    /// Whether an outcome has those of Z and ZA as the case has them. P is
    /// compared whole elsewhere.
    pub fn kept(self, case: &Case, outcome: &Outcome) -> bool {
        same(&case.z, &outcome.z, self.in_z(&case.z))
            && same(&case.za, &outcome.za, self.in_za(&case.za))
    }

    /// Puts those of Z and ZA back as the case has them.
    pub fn restore(self, case: &Case, outcome: &mut Outcome) {
        for place in self.in_z(&case.z) {
            outcome.z[place.clone()].copy_from_slice(&case.z[place]);
        }
        for place in self.in_za(&case.za) {
            outcome.za[place.clone()].copy_from_slice(&case.za[place]);
        }
    }

    /// Inverts them all, so that each is another byte; a second time they are
    /// as they were.
    pub fn invert(self, outcome: &mut Outcome) {
        let Outcome { z, p, za, .. } = outcome;
        for place in self.in_z(z) {
            invert(&mut z[place]);
        }
        for place in self.in_p(p) {
            invert(&mut p[place]);
        }
        for place in self.in_za(za) {
            invert(&mut za[place]);
        }
    }

    /// Sets those of P to one byte.
    pub fn fill_p(self, p: &mut [u8], byte: u8) {
        for place in self.in_p(p) {
            p[place].fill(byte);
        }
    }
}

/// Whether two buffers have the same bytes at these places.
fn same(one: &[u8], other: &[u8], mut places: impl Iterator<Item = Range<usize>>) -> bool {
    one.len() == other.len() && places.all(|place| one[place.clone()] == other[place])
}

fn invert(bytes: &mut [u8]) {
    for byte in bytes {
        *byte = !*byte;
    }
}

/// What is left of each part of a buffer behind so many bytes, by the part's
/// number. The buffer may have a wrong length, and so the last part another
/// than the others.
fn places(
    length: usize,
    apart: usize,
    within: impl Fn(usize) -> usize,
) -> impl Iterator<Item = Range<usize>> {
    (0..length.div_ceil(apart)).map(move |number| {
        let start = number * apart;
        (start + within(number)).min(length)..(start + apart).min(length)
    })
}

#[cfg(test)]
mod tests {
    use super::*;

    /// An outcome with the buffers of a case with vectors of 16 bytes in
    /// buffers for 64, and where the bytes beyond are.
    fn outcome() -> (Case, Outcome, Beyond) {
        let mut case = Case::empty();
        (
            case.settings.vector_bytes,
            case.settings.largest_vector_bytes,
        ) = (16, 64);
        case.z = vec![1; 32 * 64];
        case.p = vec![2; 16 * 8];
        case.za = vec![3; 64 * 64];
        let outcome = Outcome {
            z: case.z.clone(),
            p: case.p.clone(),
            za: case.za.clone(),
            ..Outcome::default()
        };
        let beyond = Beyond::of(&case.settings).expect("there are such bytes");
        (case, outcome, beyond)
    }

    #[test]
    fn only_long_buffers_have_them() {
        let mut settings = Case::empty().settings;
        for (vector_bytes, largest, there) in [
            (16, 16, false),
            (256, 256, false),
            (16, 32, true),
            (128, 256, true),
            (32, 16, false),
            (17, 64, false),
            (16, 65, false),
        ] {
            (settings.vector_bytes, settings.largest_vector_bytes) = (vector_bytes, largest);
            assert_eq!(Beyond::of(&settings).is_some(), there);
        }
    }

    #[test]
    fn inverted_are_just_they() {
        let (case, mut outcome, beyond) = outcome();
        beyond.invert(&mut outcome);
        let as_it_was = |at: usize, unit: usize| at % unit < unit / 4;
        for (at, byte) in outcome.z.iter().enumerate() {
            assert_eq!(*byte, if as_it_was(at, 64) { 1 } else { !1 });
        }
        for (at, byte) in outcome.p.iter().enumerate() {
            assert_eq!(*byte, if as_it_was(at, 8) { 2 } else { !2 });
        }
        for (at, byte) in outcome.za.iter().enumerate() {
            let within = as_it_was(at, 64) && at / 64 < 16;
            assert_eq!(*byte, if within { 3 } else { !3 });
        }
        beyond.invert(&mut outcome);
        assert!(outcome.z == case.z && outcome.p == case.p && outcome.za == case.za);
    }

    /// A change of each byte of Z and ZA is told if it is one of them.
    #[test]
    fn changes_are_told() {
        let (case, mut outcome, beyond) = outcome();
        for at in 0..case.z.len() {
            outcome.z[at] ^= 1;
            assert_eq!(beyond.kept(&case, &outcome), at % 64 < 16);
            beyond.restore(&case, &mut outcome);
            assert_eq!(outcome.z[at] == 1, at % 64 >= 16);
            outcome.z[at] = 1;
        }
        for at in 0..case.za.len() {
            outcome.za[at] ^= 1;
            let within = at % 64 < 16 && at / 64 < 16;
            assert_eq!(beyond.kept(&case, &outcome), within);
            beyond.restore(&case, &mut outcome);
            assert_eq!(outcome.za[at] == 3, !within);
            outcome.za[at] = 3;
        }
        assert!(beyond.kept(&case, &outcome));
    }

    /// Buffers of wrong lengths have them as far as they go.
    #[test]
    fn wrong_lengths_are_no_matter() {
        let (mut case, mut outcome, beyond) = outcome();
        for length in [0, 1, 15, 16, 17, 63, 64, 65, 2047, 2049] {
            for buffer in [&mut outcome.z, &mut outcome.p, &mut outcome.za] {
                buffer.resize(length, 0);
                buffer.fill(0);
            }
            (case.z, case.za) = (outcome.z.clone(), outcome.za.clone());
            beyond.invert(&mut outcome);
            let inverted = outcome.z.iter().filter(|byte| **byte == 0xFF).count();
            let expected = (0..length).filter(|at| at % 64 >= 16).count();
            assert_eq!(inverted, expected, "{length}");
            assert_eq!(beyond.kept(&case, &outcome), length <= 16);
        }
    }
}
