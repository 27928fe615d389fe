//! Tiles taken and given up (request 9): worked cases at 16 vectors of ZA,
//! the order of the answers, and that a refusal changes nothing.

use crate::held::{give_up, take, HeldMistake, Tile, ELEMENT_BYTES};

/// Answers 8, 13 and 16.
const SIZE: u8 = 8;
pub const NO_FREE_TILE: u8 = 13;
const HELD: u8 = 16;

/// Numbers that are none of the five sizes. The low byte or the low half of
/// some would be one.
const OTHER_SIZES: [u64; 13] = [
    0,
    3,
    5,
    6,
    7,
    9,
    15,
    17,
    32,
    257,
    1 << 32 | 4,
    1 << 63,
    u64::MAX,
];

/// Tiles that do not exist, by element bytes and number: numbers just past
/// the last one, numbers that are good in their low part, and no size.
const NO_TILES: [(u64, u64); 15] = [
    (1, 1),
    (2, 2),
    (4, 4),
    (8, 8),
    (16, 16),
    (2, 257),
    (4, 1 << 32),
    (16, u64::MAX),
    (0, 0),
    (3, 0),
    (32, 0),
    (257, 0),
    (1 << 32 | 2, 0),
    (u64::MAX, 0),
    (u64::MAX, u64::MAX),
];

pub fn tile(element_bytes: u64, number: u64) -> Tile {
    Tile {
        element_bytes,
        number,
    }
}

pub fn tiles(named: &[(u64, u64)]) -> Vec<Tile> {
    named.iter().map(|&(m, t)| tile(m, t)).collect()
}

/// What taking gives, a tile's number or an answer, and the tiles that are
/// then held.
pub fn taken(held: &[Tile], m: u64, mistake: HeldMistake) -> (Result<u64, u8>, Vec<Tile>) {
    let mut held = held.to_vec();
    let given = take(&mut held, m, mistake);
    (given.map_err(|refusal| refusal.number()), held)
}

/// What giving up gives, and the tiles that are then held.
pub fn given_up(held: &[Tile], tile: Tile, mistake: HeldMistake) -> (Result<(), u8>, Vec<Tile>) {
    let mut held = held.to_vec();
    let given = give_up(&mut held, tile, mistake);
    (given.map_err(|refusal| refusal.number()), held)
}

/// Taking gives that tile, which joins the held ones at their end, or that
/// answer, and then the held ones stay.
pub fn expect_take(held: &[Tile], m: u64, wanted: Result<u64, u8>) {
    let mut after = held.to_vec();
    after.extend(wanted.map(|number| tile(m, number)));
    let given = taken(held, m, HeldMistake::None);
    assert_eq!(given, (wanted, after), "{held:?}, asked {m}");
}

/// Giving up is refused with 16 and the held ones stay.
fn expect_kept(held: &[Tile], tile: Tile) {
    let given = given_up(held, tile, HeldMistake::None);
    assert_eq!(given, (Err(HELD), held.to_vec()), "{tile:?}");
}

/// All tiles of these sizes.
pub fn all_tiles(sizes: &[u64]) -> Vec<Tile> {
    sizes.iter().flat_map(|&m| Tile::all_of(m)).collect()
}

/// No tile of the size is free.
const NO: Result<u64, u8> = Err(NO_FREE_TILE);

/// Held tiles, and what is given for each of the five sizes, 1 first.
type Case = (&'static [(u64, u64)], [Result<u64, u8>; 5]);

/// Counted out by hand: tile t of m bytes is the vectors t, t+m, t+2m and
/// on, below 16.
const WORKED: [Case; 14] = [
    (&[], [Ok(0); 5]),
    (&[(1, 0)], [NO; 5]),
    // The even vectors, and the odd ones.
    (&[(2, 0)], [NO, Ok(1), Ok(1), Ok(1), Ok(1)]),
    (&[(2, 1)], [NO, Ok(0), Ok(0), Ok(0), Ok(0)]),
    // Vectors 0 and 8, then 3 and 11.
    (&[(8, 0)], [NO, Ok(1), Ok(1), Ok(1), Ok(1)]),
    (&[(8, 3)], [NO, Ok(0), Ok(0), Ok(0), Ok(0)]),
    // The first vector, one in the middle, the last.
    (&[(16, 0)], [NO, Ok(1), Ok(1), Ok(1), Ok(1)]),
    (&[(16, 8)], [NO, Ok(1), Ok(1), Ok(1), Ok(0)]),
    (&[(16, 15)], [NO, Ok(0), Ok(0), Ok(0), Ok(0)]),
    // One even and one odd vector; then every fourth of both.
    (&[(16, 0), (16, 1)], [NO, NO, Ok(2), Ok(2), Ok(2)]),
    (&[(4, 1), (4, 0)], [NO, NO, Ok(2), Ok(2), Ok(2)]),
    // Only 2, 4, 5, 6, 9, 10, 12, 13 and 14 are left.
    (&[(4, 3), (8, 0), (16, 1)], [NO, NO, Ok(2), Ok(2), Ok(2)]),
    // Only 7 and 15 are left; then only 15.
    (&[(2, 0), (4, 1), (8, 3)], [NO, NO, NO, Ok(7), Ok(7)]),
    (&[(16, 7), (8, 3), (4, 1), (2, 0)], [NO, NO, NO, NO, Ok(15)]),
];

#[test]
fn worked_cases() {
    for (held, wanted) in WORKED {
        for (m, wanted) in ELEMENT_BYTES.into_iter().zip(wanted) {
            expect_take(&tiles(held), m, wanted);
        }
    }
}

/// Asking again and again for one size gives its m tiles in order, and then
/// there is no room for any size.
#[test]
fn all_tiles_of_a_size_are_taken() {
    for m in ELEMENT_BYTES {
        let mut held = Vec::new();
        for number in 0..m {
            assert_eq!(take(&mut held, m, HeldMistake::None), Ok(number));
        }
        assert_eq!(held, all_tiles(&[m]));
        for asked in ELEMENT_BYTES {
            expect_take(&held, asked, Err(NO_FREE_TILE));
        }
    }
}

/// Answer 8 goes first: whether there is room or none, and whatever is
/// wrong with the held tiles.
#[test]
fn other_sizes() {
    let held = [
        vec![],
        tiles(&[(1, 0)]),
        tiles(&[(3, 0)]),
        tiles(&[(2, 0), (2, 0)]),
        tiles(&[(1, 0), (16, 15)]),
    ];
    for held in held {
        for m in OTHER_SIZES {
            expect_take(&held, m, Err(SIZE));
        }
    }
}

/// Answer 16: a held tile that does not exist, in any place among others.
/// None of them, good or bad, can be given up either.
#[test]
fn held_tiles_that_do_not_exist() {
    for (m, t) in NO_TILES {
        for place in 0..=2 {
            let mut held = tiles(&[(4, 1), (16, 0)]);
            held.insert(place, tile(m, t));
            for asked in ELEMENT_BYTES {
                expect_take(&held, asked, Err(HELD));
            }
            for &own in &held {
                expect_kept(&held, own);
            }
        }
    }
}

/// Answer 16, and before 13: in all cases but the last there is no room for
/// any size either.
#[test]
fn held_tiles_that_share_a_byte() {
    let full = all_tiles(&[16]);
    let with = |m: u64, t: u64| [&full[..], &[tile(m, t)]].concat();
    let held = [
        tiles(&[(1, 0), (1, 0)]),
        tiles(&[(1, 0), (16, 15)]),
        tiles(&[(16, 15), (1, 0)]),
        tiles(&[(2, 0), (2, 1), (8, 7)]),
        // More than sixteen.
        with(16, 15),
        with(2, 1),
        with(16, 16),
        vec![tile(8, 3); 1000],
    ];
    for held in held {
        for m in ELEMENT_BYTES {
            expect_take(&held, m, Err(HELD));
        }
        for &own in &held {
            expect_kept(&held, own);
        }
    }
}

/// The tile goes, and the others keep their order. It can be taken again,
/// and is then the last.
#[test]
fn giving_up() {
    let held = tiles(&[(16, 7), (2, 0), (8, 3), (4, 1), (16, 15)]);
    for place in 0..held.len() {
        let mut left = held.clone();
        left.remove(place);
        let given = given_up(&held, held[place], HeldMistake::None);
        assert_eq!(given, (Ok(()), left.clone()));
        expect_take(&left, held[place].element_bytes, Ok(held[place].number));
    }
    let only = tiles(&[(1, 0)]);
    let given = given_up(&only, only[0], HeldMistake::None);
    assert_eq!(given, (Ok(()), vec![]));
}

/// Answer 16, never 8: every tile that is not held with both its numbers,
/// whether it is free, shares bytes with held ones or does not exist.
#[test]
fn giving_up_what_is_not_held() {
    let named = [(2, 0), (8, 3), (16, 1)];
    let held = tiles(&named);
    for other in all_tiles(&ELEMENT_BYTES) {
        if !held.contains(&other) {
            expect_kept(&held, other);
        }
        expect_kept(&[], other);
    }
    for (m, t) in NO_TILES {
        expect_kept(&held, tile(m, t));
        expect_kept(&[], tile(m, t));
    }
    for m in OTHER_SIZES {
        for (_, t) in named {
            expect_kept(&held, tile(m, t));
        }
    }
    for (m, t) in named {
        expect_kept(&held, tile(m, t + 256));
        expect_kept(&held, tile(m, t | 1 << 63));
        expect_kept(&held, tile(m + 256, t));
    }
}
