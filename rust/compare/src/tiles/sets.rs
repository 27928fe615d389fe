//! The sets of tiles that can be held, no two of which share a byte.

use second::held::{Tile, ELEMENT_BYTES};

/// How many sets there are, with the empty one. A tile is held itself, or any
/// two sets are held of its two tiles of the next size, so that x sets of
/// one size are x * x + 1 of the next one down: from 2 for a tile of 16
/// bytes 5, 26, 677, and this for the tile of bytes, which is all of ZA.
pub const SETS: u64 = 458_330;

/// As many tiles as can share no byte, which is also how many vectors there
/// are to tell tiles apart by: vectors that are so far apart belong to the
/// same tiles.
pub const MOST: usize = 16;

/// The vectors of a tile that exists, a bit for each (document 01, section 3).
pub fn vectors(tile: &Tile) -> u16 {
    let places = (tile.number as usize..MOST).step_by(tile.element_bytes as usize);
    places.fold(0, |vectors, place| vectors | 1 << place)
}

/// Every tile that exists, by size and then by number.
pub fn all_tiles() -> Vec<Tile> {
    ELEMENT_BYTES.into_iter().flat_map(Tile::all_of).collect()
}

/// A set of tiles. Tile t of m bytes is bit m + t, which no other tile has.
#[derive(Clone, Copy, Debug, Default, PartialEq, Eq, PartialOrd, Ord)]
pub struct Set {
    tiles: u32,
    vectors: u16,
}

impl Set {
    /// The set with one more tile, if that shares no byte with the others.
    fn with(self, tile: &Tile) -> Option<Set> {
        let joining = vectors(tile);
        let place = tile.element_bytes + tile.number;
        (self.vectors & joining == 0).then_some(Set {
            tiles: self.tiles | 1 << place,
            vectors: self.vectors | joining,
        })
    }

    /// The tiles, by size and then by number.
    pub fn tiles(self) -> impl Iterator<Item = Tile> {
        let held = (1..u32::BITS).filter(move |place| self.tiles >> place & 1 == 1);
        held.map(|place| {
            let element_bytes = 1 << place.ilog2();
            Tile {
                element_bytes,
                number: u64::from(place) - element_bytes,
            }
        })
    }
}

/// Every set, found by letting each tile join those that have room for it.
pub fn list() -> Vec<Set> {
    let mut sets = vec![Set::default()];
    for tile in all_tiles() {
        let joined: Vec<Set> = sets.iter().filter_map(|set| set.with(&tile)).collect();
        sets.extend(joined);
    }
    sets
}
