//! Unit tests of the comparison of held tiles; they do not ask the archive.

use super::arguments::{usage, Arguments};
use super::call::Call;
use super::counts::Counts;
use super::programs::{answer_to_short_array, write_back, Second};
use super::random;
use super::rules::{Cause, Verdict};
use super::sets::{self, all_tiles, Set, SETS};
use super::state::{State, LONGEST, WATCHED};
use crate::exhaustive::blocks::{Draws, Workers};
use crate::exhaustive::codec::Programs;
use second::held::{HeldMistake, Tile};
use std::ffi::OsString;

const SECOND: Second = Second {
    mistake: HeldMistake::None,
};

fn tile(element_bytes: u64, number: u64) -> Tile {
    Tile {
        element_bytes,
        number,
    }
}

/// Held tiles in the longest array, with 7 in every place behind them.
fn holding(tiles: &[(u64, u64)]) -> State {
    let tiles: Vec<Tile> = tiles.iter().map(|&(m, t)| tile(m, t)).collect();
    State::of(&tiles, [7; WATCHED])
}

fn read(line: &str) -> Result<Arguments, String> {
    Arguments::read(line.split_whitespace().map(OsString::from))
}

#[test]
fn arguments_are_read() {
    let plain = read("").unwrap();
    assert_eq!(plain.draws.count, 200_000);
    assert_eq!(plain.mistake, HeldMistake::None);
    let all = read("--mistake HighestFree --seed 0x1F --count 12").unwrap();
    assert_eq!((all.draws.seed, all.draws.count), (31, 12));
    assert_eq!(all.mistake, HeldMistake::HighestFree);
}

#[test]
fn bad_arguments_are_errors() {
    for line in ["--seed", "--count x", "--mistake None", "--other 1", "7"] {
        assert!(read(line).is_err(), "{line}");
    }
}

#[test]
fn mistakes_are_in_the_help_text() {
    for (name, _) in HeldMistake::NAMED {
        assert!(usage().contains(&format!("NAME: {name}")), "{name}");
    }
}

/// Two tiles share a byte exactly if their numbers are equal modulo the
/// smaller size: tile t of m bytes is tiles t and t + m of 2m bytes, and so
/// on.
fn share(one: &Tile, other: &Tile) -> bool {
    let m = one.element_bytes.min(other.element_bytes);
    one.number % m == other.number % m
}

#[test]
fn all_sets_are_listed_once_and_are_good() {
    let mut sets = sets::list();
    for set in &sets {
        let tiles: Vec<Tile> = set.tiles().collect();
        for (place, one) in tiles.iter().enumerate() {
            assert!(one.exists());
            assert!(!tiles[..place].iter().any(|other| share(one, other)));
        }
    }
    sets.sort();
    sets.dedup();
    assert_eq!(sets.len() as u64, SETS);
    let of_next_size_down = |sets: u64, _| sets * sets + 1;
    assert_eq!((0..4).fold(2, of_next_size_down), SETS);
}

#[test]
fn all_tiles_exist_and_share_bytes_by_their_vectors() {
    let tiles = all_tiles();
    assert_eq!(tiles.len(), 1 + 2 + 4 + 8 + 16);
    for one in &tiles {
        assert!(one.exists());
        for other in &tiles {
            let shared = sets::vectors(one) & sets::vectors(other) != 0;
            assert_eq!(shared, share(one, other), "{one:?}, {other:?}");
        }
    }
}

/// A tile that joins stands behind the others.
#[test]
fn a_taken_tile_is_written_behind_the_held_ones() {
    let before = holding(&[(8, 3), (4, 1)]);
    let outcome = Call::Take { element_bytes: 8 }.make(&SECOND, &before);
    assert_eq!((outcome.answer, outcome.tile), (0, 0));
    let mut wanted = before.clone();
    wanted.numbers[4..6].copy_from_slice(&[8, 0]);
    wanted.count = 3;
    assert_eq!(outcome.after, wanted);
}

/// The tiles behind move up, and the numbers of the last one stay behind.
#[test]
fn tiles_move_up_and_numbers_behind_them_stay() {
    let before = holding(&[(8, 3), (4, 1), (16, 2)]);
    for (given_up, wanted) in [
        (tile(8, 3), [4, 1, 16, 2, 16, 2, 7]),
        (tile(4, 1), [8, 3, 16, 2, 16, 2, 7]),
        (tile(16, 2), [8, 3, 4, 1, 16, 2, 7]),
    ] {
        let outcome = Call::GiveUp { tile: given_up }.make(&SECOND, &before);
        assert_eq!((outcome.answer, outcome.after.count), (0, 2));
        assert_eq!(outcome.after.numbers[..7], wanted);
        assert_eq!(outcome.after.numbers[7..], before.numbers[7..]);
    }
}

#[test]
fn a_list_is_written_over_the_beginning_of_an_array() {
    let mut tiles = [1, 0, 5, 6, 7];
    let mut count = 1;
    write_back(&mut tiles, &mut count, &[tile(2, 1), tile(4, 0)]);
    assert_eq!((tiles, count), ([2, 1, 4, 0, 7], 2));
    write_back(&mut tiles, &mut count, &[]);
    assert_eq!((tiles, count), ([2, 1, 4, 0, 7], 0));
}

#[test]
fn an_array_that_is_too_short_has_its_answers() {
    assert_eq!([1, 2, 4, 8, 16].map(answer_to_short_array), [16; 5]);
    assert_eq!([0, 3, 32, u64::MAX].map(answer_to_short_array), [8; 4]);
    for count in [2, 23, usize::MAX / 2 + 1, usize::MAX] {
        let mut before = holding(&[(1, 0)]);
        before.count = count;
        before.length = 3.max(2 * (count % 32)).min(LONGEST) - 1;
        assert!(before.held().is_none());
        for (element_bytes, answer) in [(1, 16), (3, 8)] {
            let outcome = Call::Take { element_bytes }.make(&SECOND, &before);
            assert_eq!((outcome.answer, outcome.tile), (answer, 0));
            assert_eq!(outcome.after, before);
        }
        let given_up = Call::GiveUp { tile: tile(1, 0) }.make(&SECOND, &before);
        assert_eq!((given_up.answer, given_up.after), (16, before));
    }
}

/// Where no tile is free the place for it does not matter.
#[test]
fn a_place_is_needed_only_for_a_free_tile() {
    let mut before = holding(&[(2, 0)]);
    for (length, answers) in [(4, [13, 0]), (3, [13, 16]), (2, [13, 16]), (1, [16, 16])] {
        before.length = length;
        for (element_bytes, answer) in [1, 4].into_iter().zip(answers) {
            let call = Call::Take { element_bytes };
            let outcome = call.make(&SECOND, &before);
            assert_eq!(outcome.answer, answer, "{call}, length {length}");
            assert_eq!(Verdict::of(call, &before).answer(), answer);
            assert_eq!(outcome.after == before, answer != 0);
        }
    }
}

#[test]
fn causes_are_told_apart() {
    let seventeen: Vec<(u64, u64)> = (0..17).map(|number| (16, number)).collect();
    let taking = Call::Take { element_bytes: 16 };
    let giving_up = Call::GiveUp { tile: tile(4, 1) };
    for (call, held, cause) in [
        (taking, &seventeen[..], Cause::TooMany),
        (taking, &[(3, 0)], Cause::NoSuchSize),
        (taking, &[(2, 2)], Cause::NoSuchNumber),
        (taking, &[(2, 1), (4, 0), (2, 1)], Cause::Twice),
        (taking, &[(2, 1), (4, 1)], Cause::Shared),
        (taking, &[(3, 0), (2, 2)], Cause::Several),
        (giving_up, &[(2, 2)], Cause::NoSuchNumber),
        (giving_up, &[(2, 1)], Cause::OtherSize),
        (giving_up, &[(2, 0)], Cause::NotHeld),
    ] {
        let verdict = Verdict::of(call, &holding(held));
        assert_eq!(verdict, Verdict::Bad(cause), "{held:?}");
    }
    let no_tile = Call::GiveUp { tile: tile(2, 2) };
    let verdict = Verdict::of(no_tile, &holding(&[]));
    assert_eq!(verdict, Verdict::Bad(Cause::NoSuchTile));
}

#[test]
fn causes_are_listed_in_their_order() {
    for (place, (cause, _, _)) in Cause::ALL.into_iter().enumerate() {
        assert_eq!(cause as usize, place);
    }
}

/// As few random arrays as are judged, by the second program alone, leave
/// nothing to complain of but the sets that are not there.
#[test]
fn random_arrays_reach_all_that_can_occur() {
    let programs = Programs {
        archive: SECOND,
        second: SECOND,
    };
    let draws = Draws {
        seed: 11,
        count: 20_000,
    };
    let found = random::compare(&programs, &sets::list(), draws, &Workers { threads: 1 });
    let mut counts = found.expect("no difference");
    assert_eq!((counts.arrays, counts.calls()), (20_000, 40_000));
    let told = counts.check().expect_err("no sets");
    assert_eq!(told, format!("FAILED: 0 sets of tiles and not {SETS}"));
    counts.sets = SETS;
    assert_eq!(counts.check(), Ok(()));
}

/// An empty run has much to complain of: three answers to each size asked
/// for and two to each given up, one each to other sizes, and the causes of
/// both calls.
#[test]
fn missing_cells_are_told() {
    let mut counts = Counts::default();
    counts.sets = SETS;
    assert_eq!(counts.check(), Ok(()));
    counts.arrays = 20_000;
    let told = counts.check().expect_err("nothing was compared");
    assert_eq!(told.lines().count(), 5 * 3 + 1 + 5 * 2 + 1 + 8 + 10);
}

#[test]
fn a_shuffled_set_has_the_same_tiles() {
    let mut random = second::inputs::random::Random::new(5);
    let set: Set = sets::list()[SETS as usize - 1];
    let mut tiles: Vec<Tile> = set.tiles().collect();
    let before = tiles.clone();
    random::shuffle(&mut random, &mut tiles);
    assert_ne!(tiles, before);
    tiles.sort_by_key(|tile| (tile.element_bytes, tile.number));
    assert_eq!(tiles, before);
}
