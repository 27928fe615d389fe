//! Every set of tiles that can be held: each size asked for, and each tile
//! that exists given up, be it held or not.

use super::call::Call;
use super::counts::Counts;
use super::programs::Keeper;
use super::random::shuffle;
use super::sets::{all_tiles, Set};
use super::state::{State, WATCHED};
use crate::exhaustive::blocks::{Blocks, Draws, Workers};
use crate::exhaustive::codec::Programs;
use second::held::{Tile, ELEMENT_BYTES};
use second::inputs::random::Random;
use std::array;

/// Sets in a block.
const BLOCK: u64 = 1000;

/// Compares all calls from these sets, each by size and number and once more
/// in an order that is drawn.
pub fn compare<A: Keeper, S: Keeper>(
    programs: &Programs<A, S>,
    sets: &[Set],
    seed: u64,
    workers: &Workers,
) -> Result<Counts, String> {
    let count = sets.len() as u64;
    let blocks = Blocks { count, size: BLOCK };
    let calls = calls();
    workers.run("sets", blocks.number(), |block, counts: &mut Counts| {
        let mut random = Random::new(Draws { seed, count }.block_seed(block));
        for place in blocks.range(block) {
            let mut held: Vec<Tile> = sets[place as usize].tiles().collect();
            let in_order = State::of(&held, no_tiles());
            shuffle(&mut random, &mut held);
            let shuffled = State::of(&held, any_tiles(&mut random));
            for before in [in_order, shuffled] {
                let agree = |call: &Call| call.compare(programs, &before, counts);
                let compared = calls.iter().try_for_each(agree);
                compared.map_err(|own| own.told(&format!("set {} of {count}", place + 1)))?;
            }
            counts.sets += 1;
        }
        Ok(())
    })
}

/// Each size asked for, and each tile given up.
fn calls() -> Vec<Call> {
    let taking = ELEMENT_BYTES.map(|element_bytes| Call::Take { element_bytes });
    let giving_up = all_tiles().into_iter().map(|tile| Call::GiveUp { tile });
    taking.into_iter().chain(giving_up).collect()
}

/// Numbers behind the held tiles that are no tile and differ, so that one
/// that is written or moved shows.
fn no_tiles() -> [u64; WATCHED] {
    array::from_fn(|place| 0xA5A5_0000 + place as u64)
}

/// Numbers behind the held tiles that are tiles, so that one that is taken
/// for held shows.
fn any_tiles(random: &mut Random) -> [u64; WATCHED] {
    let mut numbers = [0; WATCHED];
    for place in numbers.chunks_exact_mut(2) {
        let element_bytes = random.pick(&ELEMENT_BYTES);
        let number = random.below(element_bytes as usize) as u64;
        place.copy_from_slice(&[element_bytes, number]);
    }
    numbers
}
