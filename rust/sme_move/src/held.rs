//! The tiles that a kernel holds, one more of them, and one less.

use crate::answer::Refusal;
use crate::numbers;
use std::fmt;

/// A tile of the array as two numbers. Any numbers can be in it: a tile exists if its elements have 1, 2, 4, 8 or 16
/// bytes and its number is below that.
#[derive(Clone, Copy, Debug, PartialEq, Eq, Hash)]
pub struct Tile {
    pub element_bytes: u64,
    pub number: u64,
}

/// The tiles that a kernel holds, in the order in which they were taken. Tile t of m bytes is tiles t and t + m of 2m
/// bytes, so tiles of different sizes may share bytes of the array.
///
/// ```
/// use sme_move::{HeldTiles, Refusal, Tile};
///
/// let mut held = HeldTiles::new();
/// let two = held.take(2)?;
/// // Of the tiles of 4-byte elements, 0 and 2 lie in tile 0 of 2-byte elements.
/// assert_eq!(held.take(4)?, Tile { element_bytes: 4, number: 1 });
/// assert_eq!(held.take(2), Err(Refusal::NoFreeTile));
/// held.give_up(two)?;
/// assert_eq!(held.iter().count(), 1);
/// assert_eq!(held.take(2)?.number, 0);
/// # Ok::<(), Refusal>(())
/// ```
#[derive(Clone, Default)]
pub struct HeldTiles {
    numbers: [u64; 2 * HeldTiles::MAX],
    count: usize,
}

impl HeldTiles {
    /// How many tiles can be held: no more than sixteen can share no byte.
    pub const MAX: usize = 16;

    /// No tiles.
    pub fn new() -> HeldTiles {
        HeldTiles::default()
    }

    /// These tiles, or `BadHeld` where they are more than sixteen. What else is wrong with them is the answer
    /// of the next call.
    ///
    /// ```
    /// use sme_move::{HeldTiles, Refusal, Tile};
    ///
    /// let tile = |element_bytes, number| Tile { element_bytes, number };
    /// let mut held = HeldTiles::of([tile(8, 3), tile(4, 3)])?;
    /// assert_eq!(held.take(1), Err(Refusal::BadHeld));
    /// # Ok::<(), Refusal>(())
    /// ```
    pub fn of(tiles: impl IntoIterator<Item = Tile>) -> Result<HeldTiles, Refusal> {
        let mut held = HeldTiles::new();
        for tile in tiles {
            let place = held.numbers.get_mut(2 * held.count..2 * held.count + 2);
            place
                .ok_or(Refusal::BadHeld)?
                .copy_from_slice(&[tile.element_bytes, tile.number]);
            held.count += 1;
        }
        Ok(held)
    }

    /// Takes the lowest-numbered tile with elements of so many bytes that shares no byte with a held one. A
    /// refusal leaves the held tiles as they were.
    pub fn take(&mut self, element_bytes: u64) -> Result<Tile, Refusal> {
        let (answer, number) =
            numbers::take_tile(&mut self.numbers, &mut self.count, element_bytes);
        Refusal::check(answer, 0, 0)?;
        Ok(Tile {
            element_bytes,
            number,
        })
    }

    /// Gives up a tile, and no other. A refusal leaves the held tiles as they were.
    pub fn give_up(&mut self, tile: Tile) -> Result<(), Refusal> {
        let Tile {
            element_bytes,
            number,
        } = tile;
        let answer =
            numbers::give_up_tile(&mut self.numbers, &mut self.count, element_bytes, number);
        Refusal::check(answer, 0, 0)
    }

    /// The held tiles, those taken first first.
    pub fn iter(&self) -> impl ExactSizeIterator<Item = Tile> + '_ {
        let held = &self.numbers[..2 * self.count];
        held.chunks_exact(2).map(|tile| Tile {
            element_bytes: tile[0],
            number: tile[1],
        })
    }

    pub fn len(&self) -> usize {
        self.count
    }

    pub fn is_empty(&self) -> bool {
        self.count == 0
    }
}

/// Equal as lists: numbers past the held tiles do not count.
impl PartialEq for HeldTiles {
    fn eq(&self, other: &HeldTiles) -> bool {
        self.iter().eq(other.iter())
    }
}

impl Eq for HeldTiles {}

impl fmt::Debug for HeldTiles {
    fn fmt(&self, f: &mut fmt::Formatter<'_>) -> fmt::Result {
        f.debug_list().entries(self.iter()).finish()
    }
}
