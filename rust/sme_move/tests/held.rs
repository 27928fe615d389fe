//! Held tiles: what is taken and given up, in which order they are held, and every answer.

use sme_move::{HeldTiles, Refusal, Tile};

const SIZES: [u64; 5] = [1, 2, 4, 8, 16];

fn tile(element_bytes: u64, number: u64) -> Tile {
    Tile {
        element_bytes,
        number,
    }
}

fn held(tiles: &[(u64, u64)]) -> HeldTiles {
    HeldTiles::of(tiles.iter().map(|&(size, number)| tile(size, number))).expect("there is room")
}

fn listed(held: &HeldTiles) -> Vec<(u64, u64)> {
    held.iter()
        .map(|tile| (tile.element_bytes, tile.number))
        .collect()
}

/// Takes a tile, which must be refused and leave the held tiles as they were.
#[track_caller]
fn refused(before: &HeldTiles, element_bytes: u64, refusal: Refusal) {
    let mut held = before.clone();
    assert_eq!(held.take(element_bytes), Err(refusal));
    assert_eq!(held, *before);
}

#[test]
fn each_size_is_taken_until_it_is_full() {
    for size in SIZES {
        let mut held = HeldTiles::new();
        for number in 0..size {
            assert_eq!(held.take(size), Ok(tile(size, number)));
        }
        assert_eq!(held.len() as u64, size);
        for asked in SIZES {
            refused(&held, asked, Refusal::NoFreeTile);
        }
    }
}

#[test]
fn a_taken_tile_shares_no_byte_with_a_held_one() {
    let mut held = held(&[(2, 0), (8, 3)]);
    assert_eq!(held.take(4), Ok(tile(4, 1)));
    refused(&held, 4, Refusal::NoFreeTile);
    assert_eq!(held.take(16), Ok(tile(16, 7)));
    refused(&held, 8, Refusal::NoFreeTile);
    assert_eq!(held.take(16), Ok(tile(16, 15)));
    refused(&held, 16, Refusal::NoFreeTile);
    let all = [(2, 0), (8, 3), (4, 1), (16, 7), (16, 15)];
    assert_eq!(listed(&held), all);
}

#[test]
fn giving_up_takes_one_tile_and_keeps_the_order() {
    let mut held = HeldTiles::new();
    for number in 0..16 {
        assert_eq!(held.take(16), Ok(tile(16, number)));
    }
    for number in [0, 7, 15] {
        assert_eq!(held.give_up(tile(16, number)), Ok(()));
        assert_eq!(held.give_up(tile(16, number)), Err(Refusal::BadHeld));
    }
    let rest: Vec<(u64, u64)> = (1..15).filter(|&n| n != 7).map(|n| (16, n)).collect();
    assert_eq!(listed(&held), rest);
    // Tiles 7 and 15 of 16-byte elements are tile 7 of 8-byte elements.
    assert_eq!(held.take(8), Ok(tile(8, 7)));
    assert_eq!(held.take(16), Ok(tile(16, 0)));
    refused(&held, 16, Refusal::NoFreeTile);
    assert_eq!(listed(&held)[13..], [(8, 7), (16, 0)]);
}

#[test]
fn only_a_tile_that_is_held_is_given_up() {
    let before = held(&[(4, 1), (8, 2)]);
    let large = [257, 260, 1 << 32, (1 << 32) + 1, (1 << 32) + 4, u64::MAX];
    let others = [(4, 0), (2, 1), (8, 1), (8, 5), (16, 1), (1, 4), (3, 1)].into_iter();
    let others = others.chain(large.iter().flat_map(|&n| [(4, n), (n, 1), (n, n)]));
    for (size, number) in others {
        let mut held = before.clone();
        assert_eq!(held.give_up(tile(size, number)), Err(Refusal::BadHeld));
        assert_eq!(held, before);
    }
    assert_eq!(HeldTiles::new().give_up(tile(1, 0)), Err(Refusal::BadHeld));
}

#[test]
fn an_impossible_size_goes_before_bad_tiles_and_these_before_a_full_array() {
    let bad = [
        held(&[(8, 3), (4, 3)]),
        held(&[(1, 0), (1, 0)]),
        held(&[(1, 0), (4, 4)]),
        held(&[(1, 0), (3, 0)]),
        held(&[(257, 0)]),
        held(&[(4, (1 << 32) + 1)]),
        held(&[(u64::MAX, u64::MAX)]),
    ];
    for held in &bad {
        for size in SIZES {
            refused(held, size, Refusal::BadHeld);
        }
        for size in [0, 3, 32, 257, (1 << 32) + 4, u64::MAX] {
            refused(held, size, Refusal::OutOfRange);
            refused(&HeldTiles::new(), size, Refusal::OutOfRange);
        }
        let first = held.iter().next().expect("a tile");
        let mut same = held.clone();
        assert_eq!(same.give_up(first), Err(Refusal::BadHeld));
        assert_eq!(same, *held);
    }
}

#[test]
fn more_than_sixteen_tiles_are_refused() {
    let sixteen = || (0..16).map(|number| tile(16, number));
    let full = HeldTiles::of(sixteen()).expect("there is room");
    assert_eq!(full.len(), HeldTiles::MAX);
    assert_eq!(
        full.iter().collect::<Vec<_>>(),
        sixteen().collect::<Vec<_>>()
    );
    let more = sixteen().chain([tile(16, 16)]);
    assert_eq!(HeldTiles::of(more), Err(Refusal::BadHeld));
    // Sixteen tiles that do not exist are the unit's to refuse.
    let none = HeldTiles::of((0..16).map(|number| tile(3, number))).expect("there is room");
    refused(&none, 16, Refusal::BadHeld);
}

#[test]
fn equal_are_those_that_hold_the_same_tiles_in_the_same_order() {
    let mut one = HeldTiles::new();
    assert!(one.is_empty() && one == HeldTiles::default());
    one.take(8).expect("all are free");
    one.take(4).expect("one is free");
    assert_eq!(one, held(&[(8, 0), (4, 1)]));
    assert_ne!(one, held(&[(4, 1), (8, 0)]));
    assert_ne!(one, held(&[(8, 0)]));
    // A tile that was given up is still in the record behind the others, and does not count.
    one.give_up(tile(4, 1)).expect("it is held");
    assert_eq!(one, held(&[(8, 0)]));
    one.give_up(tile(8, 0)).expect("it is held");
    assert_eq!(one, HeldTiles::new());
    assert_eq!(format!("{one:?}"), "[]");
}
