//! Tiles by size and number (document 01, section 3).

/// The bytes of an element, m: the five sizes that there are.
pub const ELEMENT_BYTES: [u64; 5] = [1, 2, 4, 8, 16];

/// A tile as the caller names it. Any numbers may stand in here; it is
/// taking and giving up that refuse.
#[derive(Clone, Copy, Debug, PartialEq, Eq)]
pub struct Tile {
    pub element_bytes: u64,
    pub number: u64,
}

impl Tile {
    /// Whether there is such a tile: there are m tiles of m bytes, numbered
    /// 0 to m-1.
    pub fn exists(&self) -> bool {
        ELEMENT_BYTES.contains(&self.element_bytes) && self.number < self.element_bytes
    }

    /// All tiles of one of the five sizes, the lowest number first.
    pub fn all_of(element_bytes: u64) -> impl DoubleEndedIterator<Item = Tile> {
        (0..element_bytes).map(move |number| Tile {
            element_bytes,
            number,
        })
    }
}
