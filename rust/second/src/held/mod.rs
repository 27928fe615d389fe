//! The tiles that a kernel holds: taking one more and giving one up
//! (request 9).
//!
//! What is free is found by marking the bytes of ZA that the held tiles
//! have by document 01, section 3. How tiles of one size lie in those of
//! another, of which the request speaks, is not used: it comes out of the
//! marking.

mod marks;
mod mistake;
mod tile;

pub use mistake::HeldMistake;
pub use tile::{Tile, ELEMENT_BYTES};

use crate::refusal::Refusal;
use marks::Marks;

/// Takes the lowest-numbered tile of `element_bytes` that shares no byte
/// with a held one: it joins the held ones at their end, and its number is
/// given. A refusal leaves the held ones as they are; the tile 0 that the
/// request has with it is for the caller to write.
///
/// The checks stand in the request's order, which is not that of their
/// numbers: 8, 16, 13.
pub fn take(
    held: &mut Vec<Tile>,
    element_bytes: u64,
    mistake: HeldMistake,
) -> Result<u64, Refusal> {
    if mistake == HeldMistake::HeldBeforeSize {
        mark_held(held, element_bytes, mistake)?;
    }
    if !ELEMENT_BYTES.contains(&element_bytes) {
        return Err(Refusal::Field);
    }
    let marks = mark_held(held, element_bytes, mistake)?;
    let tile = free_tile(&marks, element_bytes, mistake).ok_or(Refusal::NoFreeTile)?;
    held.push(tile);
    Ok(tile.number)
}

/// Gives up a tile: it and no other leaves the held ones, and the others
/// keep their order. A tile that is not held, be it for its size or because
/// there is no such tile, gives 16 and never 8, as no size is asked for.
pub fn give_up(held: &mut Vec<Tile>, tile: Tile, mistake: HeldMistake) -> Result<(), Refusal> {
    mark_held(held, tile.element_bytes, mistake)?;
    let given_up = |own: &Tile| match mistake {
        HeldMistake::GivenUpByNumber => own.number == tile.number,
        _ => *own == tile,
    };
    let place = held.iter().position(given_up).ok_or(Refusal::Held)?;
    held.remove(place);
    Ok(())
}

/// Marks what the held tiles have, or gives the part of answer 16 that is
/// about them. `element_bytes`, the size that is asked for or given up,
/// only matters to the mistake.
fn mark_held(held: &[Tile], element_bytes: u64, mistake: HeldMistake) -> Result<Marks, Refusal> {
    match mistake {
        HeldMistake::OverlapOfSizesMissed => mark_by_size(held, element_bytes, mistake),
        _ => mark_all(held, mistake),
    }
}

/// Marks the bytes of these tiles. Answer 16: one does not exist, or finds
/// a byte marked by one before it. The same tile twice is such a case.
fn mark_all(held: &[Tile], mistake: HeldMistake) -> Result<Marks, Refusal> {
    let mut marks = Marks::none(mistake);
    for tile in held {
        if !tile.exists() || !marks.is_free(tile) {
            return Err(Refusal::Held);
        }
        marks.mark(tile);
    }
    Ok(marks)
}

/// The mistake that tiles of different sizes do not notice one another:
/// each size is marked by itself, and the marks of one are given.
fn mark_by_size(held: &[Tile], element_bytes: u64, mistake: HeldMistake) -> Result<Marks, Refusal> {
    if !held.iter().all(Tile::exists) {
        return Err(Refusal::Held);
    }
    let mark_size = |size: u64| {
        let of_size = |tile: &Tile| tile.element_bytes == size;
        let tiles: Vec<Tile> = held.iter().copied().filter(of_size).collect();
        mark_all(&tiles, mistake)
    };
    for size in ELEMENT_BYTES {
        mark_size(size)?;
    }
    mark_size(element_bytes)
}

/// The lowest-numbered tile of that size that is free, if any is. The size
/// is one of the five.
fn free_tile(marks: &Marks, element_bytes: u64, mistake: HeldMistake) -> Option<Tile> {
    let mut tiles = Tile::all_of(element_bytes);
    let is_free = |tile: &Tile| marks.is_free(tile);
    match mistake {
        HeldMistake::HighestFree => tiles.rev().find(is_free),
        _ => tiles.find(is_free),
    }
}
