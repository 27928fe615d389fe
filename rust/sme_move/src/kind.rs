//! The kinds of operation.

use crate::operation::Operation;

/// Which of the seven kinds an operation is of. [`Operation`] has the same names, with what goes with each; a kind by
/// itself is for those who have only its number, as in [`Fields`](crate::Fields), or who want nothing more.
///
/// ```
/// use sme_move::{decode, decode_fields, Kind};
///
/// assert_eq!(decode(0xC080ACA9, 1)?.kind(), Kind::MovaToTile);
/// assert_eq!(Kind::of_number(decode_fields(0xC080ACA9, 1)?.kind), Some(Kind::MovaToTile));
/// assert_eq!(Kind::of_number(8), None);
/// # Ok::<(), sme_move::Refusal>(())
/// ```
#[derive(Clone, Copy, Debug, PartialEq, Eq, Hash)]
#[non_exhaustive]
pub enum Kind {
    /// 1: see [`Operation::MovaToTile`].
    MovaToTile,
    /// 2: see [`Operation::MovazFromTile`].
    MovazFromTile,
    /// 3: see [`Operation::MovaFromArray`].
    MovaFromArray,
    /// 4: see [`Operation::MovazFromArray`].
    MovazFromArray,
    /// 5: see [`Operation::St1`].
    St1,
    /// 6: see [`Operation::MovaFromTile`].
    MovaFromTile,
    /// 7: see [`Operation::Ld1`].
    Ld1,
}

impl Kind {
    /// The number that the C interface has for it.
    pub const fn number(self) -> u8 {
        match self {
            Kind::MovaToTile => 1,
            Kind::MovazFromTile => 2,
            Kind::MovaFromArray => 3,
            Kind::MovazFromArray => 4,
            Kind::St1 => 5,
            Kind::MovaFromTile => 6,
            Kind::Ld1 => 7,
        }
    }

    /// The kind of a number, if there is one.
    pub const fn of_number(number: u8) -> Option<Kind> {
        Some(match number {
            1 => Kind::MovaToTile,
            2 => Kind::MovazFromTile,
            3 => Kind::MovaFromArray,
            4 => Kind::MovazFromArray,
            5 => Kind::St1,
            6 => Kind::MovaFromTile,
            7 => Kind::Ld1,
            _ => return None,
        })
    }
}

impl Operation {
    /// Its kind.
    pub fn kind(self) -> Kind {
        match self {
            Operation::MovaToTile { .. } => Kind::MovaToTile,
            Operation::MovazFromTile { .. } => Kind::MovazFromTile,
            Operation::MovaFromArray { .. } => Kind::MovaFromArray,
            Operation::MovazFromArray { .. } => Kind::MovazFromArray,
            Operation::St1 { .. } => Kind::St1,
            Operation::MovaFromTile { .. } => Kind::MovaFromTile,
            Operation::Ld1 { .. } => Kind::Ld1,
        }
    }
}
