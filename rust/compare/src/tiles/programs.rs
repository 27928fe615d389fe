//! The two programs as the comparison sees them: arrays, and answers as
//! numbers.

use super::state::{held, put};
use second::held::{give_up, take, HeldMistake, Tile, ELEMENT_BYTES};
use sme_move::{numbers, Refusal};

/// A program that takes tiles and gives them up. Tests have wrong ones.
pub trait Keeper: Sync {
    /// Takes a tile: 0 and its number, which joins the array, or a refusal
    /// and 0 with array and count as they were.
    fn take(&self, tiles: &mut [u64], count: &mut usize, element_bytes: u64) -> (u32, u64);

    /// Gives up a tile: 0 with array and count those of the others, or a
    /// refusal with both as they were.
    fn give_up(&self, tiles: &mut [u64], count: &mut usize, tile: Tile) -> u32;
}

/// The proved archive, through the binding.
pub struct Archive;

/// The second program, with its mistake.
pub struct Second {
    pub mistake: HeldMistake,
}

impl Keeper for Archive {
    fn take(&self, tiles: &mut [u64], count: &mut usize, element_bytes: u64) -> (u32, u64) {
        numbers::take_tile(tiles, count, element_bytes)
    }

    fn give_up(&self, tiles: &mut [u64], count: &mut usize, tile: Tile) -> u32 {
        numbers::give_up_tile(tiles, count, tile.element_bytes, tile.number)
    }
}

/// It has a list, which is never shorter than its count and never without a
/// place. What an array makes of these two is said here.
impl Keeper for Second {
    fn take(&self, tiles: &mut [u64], count: &mut usize, element_bytes: u64) -> (u32, u64) {
        let Some(mut held) = list(tiles, *count) else {
            return (answer_to_short_array(element_bytes), 0);
        };
        match take(&mut held, element_bytes, self.mistake) {
            Err(refusal) => (u32::from(refusal.number()), 0),
            Ok(_) if 2 * held.len() > tiles.len() => (Refusal::BadHeld.number(), 0),
            Ok(number) => {
                write_back(tiles, count, &held);
                (0, number)
            }
        }
    }

    fn give_up(&self, tiles: &mut [u64], count: &mut usize, tile: Tile) -> u32 {
        let Some(mut held) = list(tiles, *count) else {
            return Refusal::BadHeld.number();
        };
        match give_up(&mut held, tile, self.mistake) {
            Err(refusal) => u32::from(refusal.number()),
            Ok(()) => {
                write_back(tiles, count, &held);
                0
            }
        }
    }
}

/// The answer to asking for a tile where the array is shorter than its
/// count: an asked size that is none of the five goes first.
pub fn answer_to_short_array(element_bytes: u64) -> u32 {
    if ELEMENT_BYTES.contains(&element_bytes) {
        Refusal::BadHeld.number()
    } else {
        Refusal::OutOfRange.number()
    }
}

/// The array as a list, with room for the tile that may join.
fn list(tiles: &[u64], count: usize) -> Option<Vec<Tile>> {
    let held = held(tiles, count)?;
    let mut list = Vec::with_capacity(count + 1);
    list.extend(held);
    Some(list)
}

/// The list as an array: its tiles in order, and behind them every number
/// as it was, also those of a tile that moved up or is gone.
pub fn write_back(tiles: &mut [u64], count: &mut usize, held: &[Tile]) {
    put(tiles, held);
    *count = held.len();
}
