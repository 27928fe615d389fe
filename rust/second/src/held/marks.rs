//! The bytes of ZA, each marked or not (document 01, sections 2 and 3).

use super::{HeldMistake, Tile};

/// B. Request 9 names no vector length, and needs none: vectors 16 apart
/// belong to the same tiles, so tiles that share a byte at one length share
/// one at every length. At the smallest there is the least to mark.
const VECTOR_BYTES: usize = 16;
/// ZA is B vectors of B bytes.
const ZA_BYTES: usize = VECTOR_BYTES * VECTOR_BYTES;

/// Which bytes of ZA belong to a marked tile, and the mistake to be made
/// about where they are.
pub struct Marks {
    mistake: HeldMistake,
    marked: [bool; ZA_BYTES],
}

impl Marks {
    /// No byte is marked.
    pub fn none(mistake: HeldMistake) -> Marks {
        Marks {
            mistake,
            marked: [false; ZA_BYTES],
        }
    }

    /// Whether none of the tile's bytes is marked. The tile exists.
    pub fn is_free(&self, tile: &Tile) -> bool {
        let mut vectors = vectors(tile, self.mistake);
        vectors.all(|vector| {
            let first = vector * VECTOR_BYTES;
            let bytes = &self.marked[first..first + VECTOR_BYTES];
            bytes.iter().all(|marked| !marked)
        })
    }

    /// Marks every byte of the tile. The tile exists.
    pub fn mark(&mut self, tile: &Tile) {
        for vector in vectors(tile, self.mistake) {
            let first = vector * VECTOR_BYTES;
            self.marked[first..first + VECTOR_BYTES].fill(true);
        }
    }
}

/// The ZA vectors that are the n = B/m horizontal slices of the tile, each
/// of them whole: slice s is vector s*m+t. Together they are the tile, for
/// its vertical slices are made of the same bytes.
fn vectors(tile: &Tile, mistake: HeldMistake) -> impl Iterator<Item = usize> {
    // Small numbers both, since the tile exists.
    let (m, t) = (tile.element_bytes as usize, tile.number as usize);
    let n = VECTOR_BYTES / m;
    (0..n).map(move |s| match mistake {
        HeldMistake::NeighbouringVectors => t * n + s,
        _ => s * m + t,
    })
}
