//! The mistakes about held tiles. Each test states what is right by request
//! 9, and what the mistake makes of it: that and nothing more.

use super::held::{given_up, taken, tile, tiles};
use crate::held::HeldMistake;

/// Held tiles, the asked size, what is right and what the mistake gives: a
/// tile's number or an answer.
type Taking = (&'static [(u64, u64)], u64, Result<u64, u8>, Result<u64, u8>);

/// Each case is right, and mistaken, as it says, with the tile that is given
/// among the held ones.
fn takes(mistake: HeldMistake, cases: &[Taking]) {
    for &(held, m, right, mistaken) in cases {
        let held = tiles(held);
        for (mistake, wanted) in [(HeldMistake::None, right), (mistake, mistaken)] {
            let mut after = held.clone();
            after.extend(wanted.map(|number| tile(m, number)));
            let given = taken(&held, m, mistake);
            assert_eq!(given, (wanted, after), "{mistake:?}: {held:?}, asked {m}");
        }
    }
}

/// Tile 0 of two bytes is the even vectors and not 0 to 7; tile 1 of four
/// is 1, 5, 9 and 13 and not 4 to 7, tile 2 not 8 to 11.
#[test]
fn neighbouring_vectors() {
    takes(
        HeldMistake::NeighbouringVectors,
        &[
            (&[(2, 0)], 4, Ok(1), Ok(2)),
            (&[(2, 0)], 16, Ok(1), Ok(8)),
            (&[(2, 0), (4, 1)], 16, Ok(3), Err(16)),
            (&[(2, 0), (4, 2)], 16, Err(16), Ok(12)),
            (&[(4, 0), (4, 1)], 2, Err(13), Ok(1)),
            (&[(2, 0)], 2, Ok(1), Ok(1)),
            (&[(2, 0)], 1, Err(13), Err(13)),
        ],
    );
}

/// The lowest-numbered free tile is given, not the highest.
#[test]
fn highest_free() {
    takes(
        HeldMistake::HighestFree,
        &[
            (&[], 16, Ok(0), Ok(15)),
            (&[(2, 0)], 4, Ok(1), Ok(3)),
            (&[(8, 7)], 8, Ok(0), Ok(6)),
            (&[], 1, Ok(0), Ok(0)),
            (&[(1, 0)], 8, Err(13), Err(13)),
        ],
    );
}

/// Answer 8 goes before 16. Where only one of them applies, nothing differs.
#[test]
fn held_before_size() {
    takes(
        HeldMistake::HeldBeforeSize,
        &[
            (&[(3, 0)], 3, Err(8), Err(16)),
            (&[(1, 0), (1, 0)], 0, Err(8), Err(16)),
            (&[(1, 0)], 3, Err(8), Err(8)),
            (&[(3, 0)], 4, Err(16), Err(16)),
            (&[(2, 0)], 4, Ok(1), Ok(1)),
        ],
    );
}

/// A held and an asked tile, and two held ones, share bytes across sizes.
/// Those of one size, and tiles that do not exist, the mistake does notice.
#[test]
fn overlap_of_sizes_missed() {
    let mistake = HeldMistake::OverlapOfSizesMissed;
    takes(
        mistake,
        &[
            (&[(2, 0)], 4, Ok(1), Ok(0)),
            (&[(2, 0)], 1, Err(13), Ok(0)),
            (&[(2, 0), (4, 0)], 4, Err(16), Ok(1)),
            (&[(1, 0), (16, 3)], 8, Err(16), Ok(0)),
            (&[(2, 0)], 2, Ok(1), Ok(1)),
            (&[(2, 0), (2, 0)], 4, Err(16), Err(16)),
            (&[(2, 0), (3, 0)], 4, Err(16), Err(16)),
            (&[(2, 2)], 4, Err(16), Err(16)),
            (&[(2, 0)], 3, Err(8), Err(8)),
        ],
    );
    let held = tiles(&[(2, 0), (4, 0)]);
    let right = given_up(&held, tile(4, 0), HeldMistake::None);
    assert_eq!(right, (Err(16), held.clone()));
    let mistaken = given_up(&held, tile(4, 0), mistake);
    assert_eq!(mistaken, (Ok(()), tiles(&[(2, 0)])));
}

/// Both numbers name the tile. Good held tiles never have one number twice,
/// since tiles t of two sizes share vector t; so the mistake shows where the
/// tile is not held and one of its number is.
#[test]
fn given_up_by_number() {
    let mistake = HeldMistake::GivenUpByNumber;
    let held = tiles(&[(8, 0), (4, 3), (16, 1)]);
    for m in [8, 16, 3, u64::MAX] {
        let right = given_up(&held, tile(m, 3), HeldMistake::None);
        assert_eq!(right, (Err(16), held.clone()));
        let mistaken = given_up(&held, tile(m, 3), mistake);
        assert_eq!(mistaken, (Ok(()), tiles(&[(8, 0), (16, 1)])));
    }
    // Held tiles, tiles of a number that is not held, and bad held ones.
    for tile in tiles(&[(8, 0), (4, 3), (16, 1), (4, 2), (16, u64::MAX)]) {
        for held in [&held[..], &tiles(&[(4, 3), (4, 3)])] {
            let right = given_up(held, tile, HeldMistake::None);
            assert_eq!(given_up(held, tile, mistake), right);
        }
    }
}

/// The names lead back to the mistakes.
#[test]
fn held_mistakes_have_names() {
    for (name, mistake) in HeldMistake::NAMED {
        assert_eq!(HeldMistake::named(name), Some(mistake));
        assert_eq!(format!("{mistake:?}"), name);
    }
    assert_eq!(HeldMistake::named("None"), None);
}
