//! Which ways of moving a row a predicate can lead a unit to.

use super::bits::{alike, can_mix, each, looked_at, Bits, BLOCK};

/// Something that a unit which moves rows by whole predicate bytes can tell
/// apart.
#[derive(Clone, Copy, Debug, PartialEq, Eq)]
pub enum Path {
    /// A predicate under which every element is active, or none.
    Predicate(Bits),
    /// Eight bytes that are all set, all clear or all mixed; none where they
    /// differ.
    Block(Option<Bits>),
    /// A byte of a block whose bytes differ, or of a predicate that is shorter
    /// than a block.
    Byte(Bits),
}

/// All of them, and what each is called where it is missing.
pub const PATHS: [(Path, &str); 9] = [
    (Path::Predicate(Bits::Set), "a predicate that is all set"),
    (
        Path::Predicate(Bits::Clear),
        "a predicate that is all clear",
    ),
    (Path::Block(Some(Bits::Set)), "a block that is all set"),
    (Path::Block(Some(Bits::Clear)), "a block that is all clear"),
    (
        Path::Block(Some(Bits::Mixed)),
        "a block of mixed bytes alone",
    ),
    (Path::Block(None), "another block"),
    (Path::Byte(Bits::Set), "a byte of ones"),
    (Path::Byte(Bits::Clear), "a byte of zeros"),
    (Path::Byte(Bits::Mixed), "a mixed byte"),
];

/// How often each was taken.
pub type Taken = [u64; PATHS.len()];

impl Path {
    /// Whether elements of m bytes can lead to it: only those of which some
    /// byte has several have mixed bytes.
    pub fn can_occur(self, m: usize) -> bool {
        match self {
            Path::Block(Some(Bits::Mixed)) | Path::Byte(Bits::Mixed) => can_mix(looked_at(m, 0)),
            _ => true,
        }
    }
}

/// How often a predicate of elements of m bytes takes each.
pub fn taken(predicate: &[u8], m: usize) -> Taken {
    let mut taken = [0; PATHS.len()];
    if let Some(bits) = alike(predicate, m) {
        count(&mut taken, Path::Predicate(bits));
    }
    for bytes in predicate.chunks(BLOCK) {
        let whole = bytes.len() == BLOCK;
        let block = alike(bytes, m);
        if whole {
            count(&mut taken, Path::Block(block));
        }
        if !whole || block.is_none() {
            each(bytes, m).for_each(|bits| count(&mut taken, Path::Byte(bits)));
        }
    }
    taken
}

/// A predicate whose bytes are all mixed is none of those that are counted.
fn count(taken: &mut Taken, path: Path) {
    if let Some(place) = PATHS.iter().position(|(own, _)| *own == path) {
        taken[place] += 1;
    }
}
