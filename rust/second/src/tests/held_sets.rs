//! Which tiles can be held together (request 9, and document 01, section 3):
//! at every vector length, and in every set of the larger tiles.

use super::held::{all_tiles, expect_take, given_up, tiles, NO_FREE_TILE};
use crate::execute::VECTOR_LENGTHS;
use crate::held::{HeldMistake, Tile, ELEMENT_BYTES};

/// Whether the held tiles are good: then the first of them can be given up.
fn good(held: &[Tile]) -> bool {
    held.is_empty() || given_up(held, held[0], HeldMistake::None).0.is_ok()
}

/// Two tiles share a byte exactly if they have a ZA vector in common, and
/// that is so at one vector length if it is at another (section 3).
#[test]
fn sharing_at_every_vector_length() {
    let vectors = |tile: Tile, b: u64| -> Vec<u64> {
        let (m, t) = (tile.element_bytes, tile.number);
        (0..b / m).map(|s| s * m + t).collect()
    };
    for first in all_tiles(&ELEMENT_BYTES) {
        for second in all_tiles(&ELEMENT_BYTES) {
            let apart = good(&[first, second]);
            for b in VECTOR_LENGTHS {
                let others = vectors(second, b);
                let shared = vectors(first, b).iter().any(|v| others.contains(v));
                assert_eq!(apart, !shared, "{first:?}, {second:?}, {b}");
            }
        }
    }
}

/// The request's own sentence: tile t of m bytes is tiles t and t+m of 2m
/// bytes. With these two held there is room for all tiles of m but t.
#[test]
fn a_tile_is_two_of_the_next_size() {
    for m in [1, 2, 4, 8] {
        for t in 0..m {
            let pair = tiles(&[(2 * m, t), (2 * m, t + m)]);
            for other in Tile::all_of(m) {
                let held = [&pair[..], &[other]].concat();
                assert_eq!(good(&held), other.number != t, "{held:?}");
            }
        }
    }
}

/// Every set of tiles of up to 8 bytes. By the request's sentence a tile is
/// held, or what is held of its two tiles are any two sets: of x sets for
/// these come x * x + 1. From 2 for a tile of 8 bytes that is 5, 26 and 677
/// for the tile of bytes. In each of these, taking gives the lowest tile
/// with which the held ones are still good.
#[test]
fn every_set_of_larger_tiles() {
    let all = all_tiles(&[1, 2, 4, 8]);
    let mut sets = 0;
    for chosen in 0..1_u32 << all.len() {
        let of_set = (0..all.len()).filter(|place| chosen >> place & 1 == 1);
        let held: Vec<Tile> = of_set.map(|place| all[place]).collect();
        if !good(&held) {
            continue;
        }
        sets += 1;
        for m in ELEMENT_BYTES {
            let joins = |tile: &Tile| good(&[&held[..], &[*tile]].concat());
            let lowest = Tile::all_of(m).find(joins).map(|tile| tile.number);
            expect_take(&held, m, lowest.ok_or(NO_FREE_TILE));
        }
    }
    assert_eq!(sets, 677);
}
