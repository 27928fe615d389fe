use super::*;
use crate::tile::ELEMENT_BYTES;

fn tile(&(element_bytes, number): &(u64, u64)) -> sme_move::Tile {
    sme_move::Tile {
        element_bytes,
        number,
    }
}

pub(super) fn taking(element_bytes: u64, held: &[(u64, u64)]) -> Asked {
    let question = Question::Take { element_bytes };
    Asked::new(question, held.iter().map(tile).collect())
}

pub(super) fn giving_up(given_up: (u64, u64), held: &[(u64, u64)]) -> Asked {
    let question = Question::GiveUp(tile(&given_up));
    Asked::new(question, held.iter().map(tile).collect())
}

fn printed(asked: &Asked, vector_bytes: usize, colours: bool) -> String {
    let mut out = Vec::new();
    let paint = Paint { colours };
    asked
        .print(&mut out, vector_bytes, paint)
        .expect("memory can be written");
    String::from_utf8(out).expect("plain text")
}

/// The lines that begin with these.
fn beginning<'a>(text: &'a str, start: &str) -> Vec<&'a str> {
    text.lines()
        .filter(|line| line.starts_with(start))
        .collect()
}

#[test]
fn a_new_tile_is_named_and_marked() {
    let text = printed(&taking(4, &[(2, 0), (8, 3)]), 16, false);
    let head = "one more tile of 4-byte elements\n  held     tile 0 of 2-byte elements\n           \
                tile 3 of 8-byte elements\n  answer   0: done\n  new      tile 1 of 4-byte elements\n\n";
    assert!(text.starts_with(head), "{text}");
    let row = |vector: usize| beginning(&text, &format!("{vector:>6} |"))[0].to_string();
    assert_eq!(
        row(13),
        "    13 |    0 -     |    1 -     |    1 new   |    5 -     |   13 -"
    );
    assert_eq!(
        row(15),
        "    15 |    0 -     |    1 -     |    3 -     |    7 free  |   15 free"
    );
    assert!(text.ends_with("           -      shares bytes with a held or new tile\n"));
    assert!(!text.contains("clash"));
}

#[test]
fn each_refusal_is_said_and_takes_no_tile() {
    let seventeen: Vec<(u64, u64)> = (0..17).map(|number| (16, number)).collect();
    for (element_bytes, held, answer) in [
        (3, &[][..], "8: no element has 3 bytes"),
        (
            u64::MAX,
            &[(4, 9)],
            "8: no element has 18446744073709551615 bytes",
        ),
        (0, &seventeen, "8: no element has 0 bytes"),
        (
            8,
            &[(2, 1), (4, 0), (4, 2)],
            "13: no tile of 8-byte elements is free",
        ),
        (
            8,
            &[(4, 4)],
            "16: a held tile does not exist, or two share bytes",
        ),
        (
            1,
            &[(8, 3), (4, 3)],
            "16: a held tile does not exist, or two share bytes",
        ),
        (
            1,
            &seventeen,
            "16: a held tile does not exist, or two share bytes",
        ),
    ] {
        let text = printed(&taking(element_bytes, held), 16, false);
        assert_eq!(
            beginning(&text, "  answer"),
            [format!("  answer   {answer}")]
        );
        assert_eq!(beginning(&text, "  new "), ["  new      none"]);
    }
}

#[test]
fn what_is_wrong_with_held_tiles_is_said() {
    let text = printed(&taking(16, &[(8, 3), (257, 0), (4, 3), (4, 1)]), 32, false);
    let head = "one more tile of 16-byte elements\n  \
                held     tile 3 of 8-byte elements, which shares bytes with another\n           \
                tile 0 of 257-byte elements, which does not exist\n           \
                tile 3 of 4-byte elements, which shares bytes with another\n           \
                tile 1 of 4-byte elements\n";
    assert!(text.starts_with(head), "{text}");
    let row = "    27 |    0 -     |    1 -     |    3 clash |    3 clash |   11 -";
    assert_eq!(beginning(&text, "    27 |"), [row]);
    assert!(text.ends_with("           clash  held, and shares bytes with another held tile\n"));
}

#[test]
fn with_no_tile_held_the_first_of_each_size_is_new() {
    for element_bytes in ELEMENT_BYTES {
        let text = printed(&taking(element_bytes as u64, &[]), 16, false);
        assert_eq!(beginning(&text, "  held"), ["  held     none"]);
        let new = format!("  new      tile 0 of {element_bytes}-byte elements");
        assert_eq!(beginning(&text, "  new  ")[0], new);
    }
}

#[test]
fn a_tile_that_is_given_up_is_marked_and_the_others_are_left() {
    let text = printed(&giving_up((8, 3), &[(2, 0), (8, 3), (4, 1)]), 16, false);
    let head =
        "give up tile 3 of 8-byte elements\n  held     tile 0 of 2-byte elements\n           \
                tile 3 of 8-byte elements\n           tile 1 of 4-byte elements\n  \
                answer   0: done\n  \
                left     tile 0 of 2-byte elements\n           tile 1 of 4-byte elements\n\n";
    assert!(text.starts_with(head), "{text}");
    assert_eq!(
        beginning(&text, "    11 |"),
        ["    11 |    0 -     |    1 -     |    3 free  |    3 given |   11 free"]
    );
    assert_eq!(
        beginning(&text, "           given"),
        ["           given  the tile that was given up"]
    );
    let text = printed(&giving_up((8, 3), &[(8, 3)]), 16, false);
    assert_eq!(beginning(&text, "  left"), ["  left     none"]);
}

#[test]
fn a_refusal_to_give_up_is_said_and_leaves_the_held_tiles() {
    let many = [(16, 0); 17];
    let bad = "16: a held tile does not exist, or two share bytes";
    for (given_up, held, answer) in [
        (
            (8, 4),
            &[(8, 3)][..],
            "16: tile 4 of 8-byte elements is not held",
        ),
        ((3, 9), &[], "16: tile 9 of 3-byte elements is not held"),
        ((8, 3), &[(8, 3), (4, 3)], bad),
        ((8, 3), &[(8, 3), (4, 4)], bad),
        ((16, 0), &many, bad),
    ] {
        let text = printed(&giving_up(given_up, held), 16, false);
        let expected = format!("  answer   {answer}");
        assert_eq!(beginning(&text, "  answer"), [expected]);
        let left = match held {
            [] => "  left     none",
            [(16, 0), ..] => "  left     tile 0 of 16-byte elements",
            _ => "  left     tile 3 of 8-byte elements",
        };
        assert_eq!(beginning(&text, "  left"), [left]);
        assert!(!text.contains("given  "));
    }
}

#[test]
fn colours_change_nothing_else() {
    let taking = taking(4, &[(2, 0), (8, 3), (8, 3)]);
    let coloured = printed(&taking, 16, true);
    let mut plain = String::new();
    for (i, part) in coloured.split("\u{1b}[").enumerate() {
        let text = if i == 0 {
            part
        } else {
            part.split_once('m').expect("a colour ends").1
        };
        plain.push_str(text);
    }
    let trimmed: Vec<&str> = plain.lines().map(str::trim_end).collect();
    let expected = printed(&taking, 16, false);
    assert_eq!(trimmed, expected.lines().collect::<Vec<_>>());
}
