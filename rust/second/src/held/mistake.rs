//! Deliberate mistakes about held tiles: the one of document 01, section 8
//! about where a tile lies, and four that request 9 invites.
//!
//! Only the comparison runs them, to show that it would notice each.

/// One mistake, or none.
#[derive(Clone, Copy, Debug, PartialEq, Eq)]
pub enum HeldMistake {
    None,
    /// Tile t of m bytes is taken as the neighbouring vectors t*n to
    /// t*n+n-1.
    NeighbouringVectors,
    /// The highest-numbered free tile is given.
    HighestFree,
    /// Answer 16 for the held tiles goes before answer 8.
    HeldBeforeSize,
    /// Tiles of different sizes, two held ones or a held and an asked one,
    /// are not found to share bytes.
    OverlapOfSizesMissed,
    /// The first held tile of the number is given up, whatever its size.
    GivenUpByNumber,
}

impl HeldMistake {
    /// Every mistake, with its name.
    pub const NAMED: [(&'static str, HeldMistake); 5] = [
        ("NeighbouringVectors", HeldMistake::NeighbouringVectors),
        ("HighestFree", HeldMistake::HighestFree),
        ("HeldBeforeSize", HeldMistake::HeldBeforeSize),
        ("OverlapOfSizesMissed", HeldMistake::OverlapOfSizesMissed),
        ("GivenUpByNumber", HeldMistake::GivenUpByNumber),
    ];

    /// The mistake of that name.
    pub fn named(name: &str) -> Option<HeldMistake> {
        let mut named = HeldMistake::NAMED.iter();
        named.find(|(own, _)| *own == name).map(|&(_, found)| found)
    }
}
