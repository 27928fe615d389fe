//! The answers by the rules alone, with the cause of each 16: what both
//! programs are held to, and what the cases are counted by.

use super::call::Call;
use super::sets::{vectors, MOST};
use super::state::State;
use second::held::{Tile, ELEMENT_BYTES};
use sme_move::Refusal;

/// Why the answer is 16. Those up to `Several` are about the held tiles.
#[derive(Clone, Copy, Debug, PartialEq, Eq)]
pub enum Cause {
    ShortArray,
    TooMany,
    NoSuchSize,
    NoSuchNumber,
    Twice,
    Shared,
    Several,
    NoPlace,
    NoSuchTile,
    OtherSize,
    NotHeld,
}

impl Cause {
    /// Every cause in words, and whether taking and giving up can have it.
    pub const ALL: [(Cause, &'static str, [bool; 2]); 11] = [
        (Cause::ShortArray, "array shorter than its count", [true; 2]),
        (Cause::TooMany, "more tiles than sixteen", [true; 2]),
        (Cause::NoSuchSize, "size of a held tile", [true; 2]),
        (Cause::NoSuchNumber, "number of a held tile", [true; 2]),
        (Cause::Twice, "a tile held twice", [true; 2]),
        (Cause::Shared, "tiles that share a byte", [true; 2]),
        (Cause::Several, "several of these four", [true; 2]),
        (Cause::NoPlace, "no place for the tile", [true, false]),
        (Cause::NoSuchTile, "not held, no such tile", [false, true]),
        (Cause::OtherSize, "number held, size not", [false, true]),
        (Cause::NotHeld, "number not held", [false, true]),
    ];
}

/// What the rules say of a call.
#[derive(Clone, Copy, Debug, PartialEq, Eq)]
pub enum Verdict {
    Done,
    BadSize,
    NoneFree,
    Bad(Cause),
}

impl Verdict {
    pub fn of(call: Call, before: &State) -> Verdict {
        let verdict = match call {
            Call::Take { element_bytes } => of_taking(element_bytes, before),
            Call::GiveUp { tile } => of_giving_up(tile, before),
        };
        verdict.unwrap_or_else(Verdict::Bad)
    }

    /// The number of the answer.
    pub fn answer(self) -> u32 {
        match self {
            Verdict::Done => 0,
            Verdict::BadSize => Refusal::OutOfRange.number(),
            Verdict::NoneFree => Refusal::NoFreeTile.number(),
            Verdict::Bad(_) => Refusal::BadHeld.number(),
        }
    }
}

fn of_taking(element_bytes: u64, before: &State) -> Result<Verdict, Cause> {
    if !ELEMENT_BYTES.contains(&element_bytes) {
        return Ok(Verdict::BadSize);
    }
    let (_, held) = check_held(before)?;
    let is_free = |tile: Tile| vectors(&tile) & held == 0;
    if !Tile::all_of(element_bytes).any(is_free) {
        return Ok(Verdict::NoneFree);
    }
    // The held tiles are good, so that their count is small.
    if before.length < 2 * before.count + 2 {
        return Err(Cause::NoPlace);
    }
    Ok(Verdict::Done)
}

fn of_giving_up(tile: Tile, before: &State) -> Result<Verdict, Cause> {
    let (mut held, _) = check_held(before)?;
    let has_number = |own: Tile| own.number == tile.number;
    if held.clone().any(|own| own == tile) {
        Ok(Verdict::Done)
    } else if !tile.exists() {
        Err(Cause::NoSuchTile)
    } else if held.any(has_number) {
        Err(Cause::OtherSize)
    } else {
        Err(Cause::NotHeld)
    }
}

/// The held tiles and all their vectors, or what is wrong with them. A cause
/// that is given is the only one, but that more than sixteen tiles always
/// have others too.
fn check_held(before: &State) -> Result<(impl Iterator<Item = Tile> + Clone + '_, u16), Cause> {
    let held = before.held().ok_or(Cause::ShortArray)?;
    if before.count > MOST {
        return Err(Cause::TooMany);
    }
    let mut taken = 0;
    let mut found = None;
    for (place, tile) in held.clone().enumerate() {
        match join(taken, &tile, held.clone().take(place)) {
            Ok(joined) => taken = joined,
            Err(cause) if found.is_none_or(|own| own == cause) => found = Some(cause),
            Err(_) => found = Some(Cause::Several),
        }
    }
    found.map_or(Ok((held, taken)), Err)
}

/// The vectors with those of one more tile, or what is wrong with it beside
/// those that are before it.
fn join(taken: u16, tile: &Tile, mut before: impl Iterator<Item = Tile>) -> Result<u16, Cause> {
    if !ELEMENT_BYTES.contains(&tile.element_bytes) {
        return Err(Cause::NoSuchSize);
    }
    if !tile.exists() {
        return Err(Cause::NoSuchNumber);
    }
    let joining = vectors(tile);
    if taken & joining == 0 {
        Ok(taken | joining)
    } else if before.any(|own| own == *tile) {
        Err(Cause::Twice)
    } else {
        Err(Cause::Shared)
    }
}
