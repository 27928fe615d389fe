//! Taking tiles and giving them up through the archive, and with programs that are deliberately wrong.

use compare::exhaustive::blocks::{Draws, Workers};
use compare::exhaustive::codec::Programs;
use compare::tiles::call::Call;
use compare::tiles::counts::Counts;
use compare::tiles::programs::{Archive, Keeper, Second};
use compare::tiles::sets::{self, Set};
use compare::tiles::state::{State, WATCHED};
use compare::tiles::{every_set, random};
use second::held::{HeldMistake, Tile};

const ONE: Workers = Workers { threads: 1 };
const TWO: Workers = Workers { threads: 2 };

const SECOND: Second = Second {
    mistake: HeldMistake::None,
};

const DRAWS: Draws = Draws {
    seed: 7,
    count: 5001,
};

/// Some sets of every kind: each of those with few or large tiles, and some of the others.
fn some_sets() -> Vec<Set> {
    let sets = sets::list();
    let (first, others) = sets.split_at(700);
    let others = others.iter().step_by(97);
    first.iter().chain(others).copied().collect()
}

/// The second program with what it leaves changed: the answer and the tile taken (0 where one is given up), the
/// array and the count.
struct Wrong<F>(F);

impl<F: Fn(&mut (u32, u64), &mut [u64], &mut usize) + Sync> Keeper for Wrong<F> {
    fn take(&self, tiles: &mut [u64], count: &mut usize, element_bytes: u64) -> (u32, u64) {
        let mut answered = SECOND.take(tiles, count, element_bytes);
        self.0(&mut answered, tiles, count);
        answered
    }

    fn give_up(&self, tiles: &mut [u64], count: &mut usize, tile: Tile) -> u32 {
        let mut answered = (SECOND.give_up(tiles, count, tile), 0);
        self.0(&mut answered, tiles, count);
        answered.0
    }
}

/// What is found of a program beside another on some sets.
fn of_sets(archive: impl Keeper, second: impl Keeper, workers: &Workers) -> Result<Counts, String> {
    let programs = Programs { archive, second };
    every_set::compare(&programs, &some_sets(), DRAWS.seed, workers)
}

/// What is found of a program beside another on random arrays.
fn of_arrays(
    archive: impl Keeper,
    second: impl Keeper,
    workers: &Workers,
) -> Result<Counts, String> {
    let programs = Programs { archive, second };
    random::compare(&programs, &sets::list(), DRAWS, workers)
}

#[test]
fn sets_agree_on_one_thread_and_on_two() {
    let [one, two] = [ONE, TWO].map(|workers| of_sets(Archive, SECOND, &workers));
    assert_eq!(one, two);
    let counts = one.expect("no difference");
    assert_eq!(counts.sets as usize, some_sets().len());
    assert_eq!(counts.calls(), counts.sets * 2 * (5 + 31));
}

#[test]
fn random_arrays_agree_on_one_thread_and_on_two() {
    let [one, two] = [ONE, TWO].map(|workers| of_arrays(Archive, SECOND, &workers));
    assert_eq!(one, two);
    assert_eq!(one.expect("no difference").arrays, DRAWS.count);
}

/// Every mistake shows on random arrays, and on sets every one but that about an asked size that is none.
#[test]
fn mistakes_are_noticed() {
    for (name, mistake) in HeldMistake::NAMED {
        let told = of_arrays(Archive, Second { mistake }, &TWO).expect_err(name);
        assert!(told.starts_with("DIFFERENCE on random array "), "{told}");
        let of_sets = of_sets(Archive, Second { mistake }, &TWO);
        let shown = mistake != HeldMistake::HeldBeforeSize;
        assert_eq!(of_sets.is_err(), shown, "{name}");
    }
}

#[test]
fn a_difference_is_told_in_full_and_alike_on_one_thread_and_on_two() {
    let wrong = || Wrong(|answered: &mut (u32, u64), _: &mut [u64], _: &mut usize| answered.1 = 9);
    let [one, two] = [ONE, TWO].map(|workers| of_sets(wrong(), SECOND, &workers));
    assert_eq!(one, two);
    let told = one.expect_err("a difference");
    let lines: Vec<&str> = told.lines().collect();
    assert_eq!(lines.len(), 5, "{told}");
    assert!(lines[0].starts_with("DIFFERENCE on set 1 of "), "{told}");
    assert!(lines[0].ends_with(": taking a tile of size 1"), "{told}");
    assert!(lines[1].starts_with("before:  count 0, array of 44 numbers: 0xA5A50000 "));
    assert!(lines[2].starts_with("archive: answer 0, tile 9, count 1, array of 44 numbers: 1 0 "));
    assert!(lines[3].starts_with("second:  answer 0, tile 0, count 1, array of 44 numbers: 1 0 "));
    assert_eq!(lines[4], "rules:   answer 0, Done");
}

/// A tile with a refusal, a count that moves, a number behind the held tiles that is written, the place of a tile
/// given up cleared, and tiles in another order.
#[test]
fn each_part_that_is_wrong_is_noticed() {
    type Spoil = fn(&mut (u32, u64), &mut [u64], &mut usize);
    let spoils: [Spoil; 6] = [
        |answered, _, _| answered.0 ^= 1,
        |answered, _, _| answered.1 += u64::from(answered.0 == 13),
        |answered, _, count| *count += usize::from(answered.0 == 16),
        |_, tiles, _| tiles[tiles.len() - 1] = 1,
        |answered, tiles, count| {
            if answered.0 == 0 {
                tiles[2 * *count..].fill(0);
            }
        },
        |_, tiles, count| {
            if *count > 2 {
                tiles[..2 * *count].rotate_left(2);
            }
        },
    ];
    for (place, spoil) in spoils.into_iter().enumerate() {
        let found = of_sets(Wrong(spoil), SECOND, &TWO);
        assert!(found.is_err(), "{place}");
    }
}

#[test]
fn a_wrong_answer_is_noticed_even_where_both_give_it() {
    let wrong = || {
        Wrong(|answered: &mut (u32, u64), _: &mut [u64], _: &mut usize| {
            if answered.0 == 13 {
                answered.0 = 16;
            }
        })
    };
    for found in [
        of_sets(wrong(), wrong(), &TWO),
        of_arrays(wrong(), wrong(), &TWO),
    ] {
        let told = found.expect_err("a difference");
        assert!(told.ends_with("rules:   answer 13, NoneFree"), "{told}");
    }
}

/// Counts and lengths at their ends, with the answers to asking for size 1 and for size 3 and to giving up the tile of
/// bytes, which is the first in the array. Nothing is written but by the one call that is done.
#[test]
fn counts_and_lengths_have_their_answers() {
    let first = Tile {
        element_bytes: 1,
        number: 0,
    };
    let calls = [
        Call::Take { element_bytes: 1 },
        Call::Take { element_bytes: 3 },
        Call::GiveUp { tile: first },
    ];
    for (count, length, answers) in [
        (0, 0, [16, 8, 16]),
        (0, 1, [16, 8, 16]),
        (0, 2, [0, 8, 16]),
        (1, 1, [16, 8, 16]),
        (1, 2, [13, 8, 0]),
        (1, 3, [13, 8, 0]),
        (2, 2, [16, 8, 16]),
        (2, 4, [16, 8, 16]),
        (17, 44, [16, 8, 16]),
        (1 << 32, 44, [16, 8, 16]),
        ((1 << 32) + 1, 44, [16, 8, 16]),
        (usize::MAX / 2 + 1, 0, [16, 8, 16]),
        (usize::MAX / 2 + 2, 2, [16, 8, 16]),
        (usize::MAX, 44, [16, 8, 16]),
    ] {
        let mut before = State::of(&[first], [7; WATCHED]);
        (before.count, before.length) = (count, length);
        for (call, answer) in calls.into_iter().zip(answers) {
            let archive = call.make(&Archive, &before);
            let told = format!("{call}, count {count}, length {length}");
            assert_eq!(archive, call.make(&SECOND, &before), "{told}");
            assert_eq!(archive.answer, answer, "{told}");
            assert_eq!(archive.after == before, answer != 0, "{told}");
        }
    }
}
