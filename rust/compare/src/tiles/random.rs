//! Random arrays, most of them bad in one way: a tile that is none, tiles
//! that share bytes, a count or a length that does not fit.

use super::call::Call;
use super::counts::Counts;
use super::programs::Keeper;
use super::sets::{all_tiles, Set};
use super::state::{State, LONGEST};
use crate::exhaustive::blocks::{Blocks, Draws, Workers};
use crate::exhaustive::codec::Programs;
use second::held::{Tile, ELEMENT_BYTES};
use second::inputs::random::Random;
use std::array;

/// Arrays in a block.
const BLOCK: u64 = 2000;
/// The most tiles that are put into an array: more than can be held.
const MOST_TILES: usize = 20;
/// Beside sizes and numbers of tiles, and where fewer bits are looked at.
const NEIGHBOURS: [u64; 18] = [
    0,
    3,
    5,
    6,
    7,
    9,
    12,
    15,
    16,
    17,
    31,
    32,
    255,
    256,
    257,
    (1 << 32) + 1,
    1 << 63,
    u64::MAX,
];
/// What makes another number of one without changing its low bits.
const HIGH_BITS: [u64; 5] = [1 << 5, 1 << 8, 1 << 16, 1 << 32, 1 << 63];
/// Counts of more tiles than can be held. Twice the last two do not fit a
/// number.
const HUGE: [usize; 5] = [17, 1 << 16, 1 << 32, usize::MAX / 2 + 1, usize::MAX];

/// Compares taking a tile and giving one up from each random array.
pub fn compare<A: Keeper, S: Keeper>(
    programs: &Programs<A, S>,
    sets: &[Set],
    draws: Draws,
    workers: &Workers,
) -> Result<Counts, String> {
    let blocks = Blocks {
        count: draws.count,
        size: BLOCK,
    };
    workers.run("random", blocks.number(), |block, counts: &mut Counts| {
        let mut random = Random::new(draws.block_seed(block));
        for place in blocks.range(block) {
            let held = draw_tiles(&mut random, sets);
            let before = draw_state(&mut random, &held);
            for call in draw_calls(&mut random, &held) {
                let compared = call.compare(programs, &before, counts);
                compared.map_err(|own| own.told(&format!("random array {}", place + 1)))?;
            }
            counts.arrays += 1;
        }
        Ok(())
    })
}

/// Puts the items in an order that is drawn.
pub fn shuffle<T>(random: &mut Random, items: &mut [T]) {
    for last in (1..items.len()).rev() {
        items.swap(last, random.below(last + 1));
    }
}

/// Tiles that can be held, most often with one that is spoiled or joins
/// without room, or any tiles.
fn draw_tiles(random: &mut Random, sets: &[Set]) -> Vec<Tile> {
    if random.chance(1, 4) {
        let count = random.below(MOST_TILES + 1);
        let of_all = random.chance(1, 2);
        let one = |_| {
            if of_all {
                draw_existing(random)
            } else {
                draw_tile(random)
            }
        };
        return (0..count).map(one).collect();
    }
    let mut held: Vec<Tile> = random.pick(sets).tiles().collect();
    shuffle(random, &mut held);
    // Most sets have many tiles. Some of a set's tiles are a set as well.
    if random.chance(1, 2) {
        held.truncate(random.below(held.len() + 1));
    }
    if random.chance(2, 3) {
        spoil(random, &mut held);
    }
    held
}

/// Changes one tile, or puts one more in. Some of the results are good.
fn spoil(random: &mut Random, held: &mut Vec<Tile>) {
    let place = random.below(held.len() + 1);
    let joining = match random.below(3) {
        0 if !held.is_empty() => random.pick(held),
        1 => draw_existing(random),
        _ => draw_tile(random),
    };
    match held.get_mut(place) {
        Some(tile) if random.chance(3, 4) => match random.below(3) {
            0 => tile.element_bytes = draw_near(random, tile.element_bytes),
            1 => tile.number = draw_near(random, tile.number),
            _ => *tile = joining,
        },
        _ => held.insert(place, joining),
    }
}

/// A tile that exists.
fn draw_existing(random: &mut Random) -> Tile {
    random.pick(&all_tiles())
}

/// Any two numbers, the first of which is often a size.
fn draw_tile(random: &mut Random) -> Tile {
    let element_bytes = random.pick(&ELEMENT_BYTES);
    let number = random.below(16) as u64;
    Tile {
        element_bytes: if random.chance(3, 4) {
            element_bytes
        } else {
            draw_near(random, element_bytes)
        },
        number: if random.chance(3, 4) {
            number
        } else {
            draw_near(random, number)
        },
    }
}

/// A number that could be taken for another one, or any number.
fn draw_near(random: &mut Random, number: u64) -> u64 {
    match random.below(5) {
        0 => number.wrapping_add(1),
        1 => number.wrapping_sub(1),
        2 => number | random.pick(&HIGH_BITS),
        3 => random.pick(&NEIGHBOURS),
        _ => random.bits(),
    }
}

/// An array that begins with these tiles. Its count is most often theirs.
/// What stands behind them is tiles, or no tiles.
fn draw_state(random: &mut Random, held: &[Tile]) -> State {
    let behind = if random.chance(1, 2) {
        array::from_fn(|_| random.bits())
    } else {
        array::from_fn(|_| random.below(17) as u64)
    };
    let mut state = State::of(held, behind);
    if random.chance(1, 6) {
        state.count = draw_count(random, held.len());
    }
    state.length = draw_length(random, state.count);
    state
}

/// A count that is not that of the tiles, or only by chance: small, huge, or
/// the same in its low bits or once it is doubled.
fn draw_count(random: &mut Random, tiles: usize) -> usize {
    match random.below(4) {
        0 => random.below(MOST_TILES + 1),
        1 => random.pick(&HUGE),
        2 => tiles | 1 << 32,
        _ => tiles | 1 << (usize::BITS - 1),
    }
}

/// The length that the count needs, with the place for one more tile or
/// without, longer, shorter, odd or zero.
fn draw_length(random: &mut Random, count: usize) -> usize {
    let needed = count.saturating_mul(2).min(LONGEST - 2);
    match random.below(12) {
        0 => 0,
        1 => random.below(needed + 1),
        2 => needed.saturating_sub(1),
        3 => needed,
        4 => needed + 1,
        5 | 6 => needed + 2,
        7 => random.below(LONGEST + 1),
        _ => LONGEST,
    }
}

/// One call of each kind. What is given up is most often a held tile or one
/// that shares its number.
fn draw_calls(random: &mut Random, held: &[Tile]) -> [Call; 2] {
    let asked = random.pick(&ELEMENT_BYTES);
    let element_bytes = match random.below(8) {
        0 => draw_near(random, asked),
        _ => asked,
    };
    let tile = match random.below(8) {
        0 => draw_tile(random),
        1 => draw_existing(random),
        _ if held.is_empty() => draw_existing(random),
        2 => Tile {
            element_bytes: random.pick(&ELEMENT_BYTES),
            ..random.pick(held)
        },
        3 => {
            let own = random.pick(held);
            Tile {
                element_bytes: draw_near(random, own.element_bytes),
                ..own
            }
        }
        _ => random.pick(held),
    };
    [Call::Take { element_bytes }, Call::GiveUp { tile }]
}
