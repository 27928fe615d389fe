//! The array of held tiles, with what stands behind them and behind its end.

use second::held::Tile;

/// The longest array: room for more tiles than can be held, and an odd rest.
pub const LONGEST: usize = 44;
/// All numbers that are watched: some are always behind the array's end, so
/// that one that is written there shows.
pub const WATCHED: usize = LONGEST + 4;

/// What a call is given, and what it leaves.
#[derive(Clone, Debug, PartialEq, Eq)]
pub struct State {
    pub numbers: [u64; WATCHED],
    /// How many of the numbers are the array. At most the longest.
    pub length: usize,
    /// How many tiles are said to be held. Any number.
    pub count: usize,
}

impl State {
    /// These tiles in an array with places behind them, `behind` being what
    /// stands there before they are put in.
    pub fn of(tiles: &[Tile], behind: [u64; WATCHED]) -> State {
        let mut state = State {
            numbers: behind,
            length: LONGEST,
            count: tiles.len(),
        };
        put(&mut state.numbers, tiles);
        state
    }

    /// The array, as both programs are given it.
    pub fn array(&mut self) -> (&mut [u64], &mut usize) {
        (&mut self.numbers[..self.length], &mut self.count)
    }

    /// The held tiles, or none where the array is shorter than its count.
    pub fn held(&self) -> Option<impl Iterator<Item = Tile> + Clone + '_> {
        held(&self.numbers[..self.length], self.count)
    }
}

/// Puts tiles at the beginning of an array that has the places. The numbers
/// behind them stay.
pub fn put(numbers: &mut [u64], tiles: &[Tile]) {
    for (place, tile) in numbers.chunks_exact_mut(2).zip(tiles) {
        place.copy_from_slice(&[tile.element_bytes, tile.number]);
    }
}

/// The first `count` tiles of an array, or none where it is shorter. Twice
/// the count may not fit a number.
pub fn held(numbers: &[u64], count: usize) -> Option<impl Iterator<Item = Tile> + Clone + '_> {
    let places = numbers.chunks_exact(2);
    let tile = |place: &[u64]| Tile {
        element_bytes: place[0],
        number: place[1],
    };
    (count <= places.len()).then(|| places.take(count).map(tile))
}
