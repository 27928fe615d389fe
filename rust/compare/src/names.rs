//! Kinds, directions and answers by the binding's names. The two programs are
//! compared by their numbers; what a case is called and counted under goes by
//! these.

use second::flat::Flat;
use second::inputs::rows::Row;
use sme_move::{Direction, Kind, Refusal};

/// 'Done', or why not.
pub type Answer = Result<(), Refusal>;

/// Answer 7, for those who do not ask for its address and its element.
pub const FAULT: Refusal = Refusal::OutsideMemory {
    address: 0,
    element: 0,
};

/// Both directions, and how they are called.
pub const WAYS: [(Direction, &str); 2] = [
    (Direction::Horizontal, "horizontal"),
    (Direction::Vertical, "vertical"),
];

/// The kinds that go to memory.
pub const ACCESSES: [Kind; 2] = [Kind::St1, Kind::Ld1];

/// The number of an answer.
pub const fn number(answer: Answer) -> u32 {
    match answer {
        Ok(()) => 0,
        Err(refusal) => refusal.number(),
    }
}

/// What has the second program's number of a kind.
pub trait Named {
    /// The kind of that number.
    fn kind(&self) -> Kind;
}

impl Named for Flat {
    fn kind(&self) -> Kind {
        of_number(self.kind)
    }
}

impl Named for Row {
    fn kind(&self) -> Kind {
        of_number(self.kind)
    }
}

fn of_number(number: u8) -> Kind {
    Kind::of_number(number).expect("the binding has every kind of the second program")
}

/// The direction of an operation on a slice.
pub fn direction(operation: &Flat) -> Direction {
    let found = Direction::of_number(operation.direction);
    found.expect("the binding has every direction of the second program")
}

/// What a kind is called.
pub fn name(kind: Kind) -> &'static str {
    match kind {
        Kind::MovaToTile => "move to tile",
        Kind::MovazFromTile => "move and zero from tile",
        Kind::MovaFromArray => "move from array",
        Kind::MovazFromArray => "move and zero from array",
        Kind::St1 => "store",
        Kind::MovaFromTile => "move from tile",
        Kind::Ld1 => "load",
        _ => "kind of a later version",
    }
}

/// What the position of a switch is called.
pub fn on_or_off(switch: bool) -> &'static str {
    if switch {
        "on"
    } else {
        "off"
    }
}

/// Whether a kind goes to memory.
pub fn is_access(kind: Kind) -> bool {
    ACCESSES.contains(&kind)
}

/// Whether a kind moves whole vectors of the array.
pub fn is_array(kind: Kind) -> bool {
    matches!(kind, Kind::MovaFromArray | Kind::MovazFromArray)
}

/// Whether a kind has a governing predicate.
pub fn is_predicated(kind: Kind) -> bool {
    matches!(kind, Kind::MovaToTile | Kind::MovaFromTile) || is_access(kind)
}
