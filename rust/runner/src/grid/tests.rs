//! Grids small and large, plain and coloured.

use super::*;
use crate::paint::Paint;

fn view(colours: bool, all: bool, width: usize) -> View {
    let paint = Paint { colours };
    View { paint, width, all }
}

/// A grid of the rows of two equal buffers.
fn grid<'a>(before: &'a [u8], after: &'a [u8], row_bytes: usize, group: usize) -> Grid<'a> {
    let rows = before.chunks(row_bytes).zip(after.chunks(row_bytes));
    let row = |(number, (before, after)): (usize, (&'a [u8], &'a [u8]))| Row {
        labels: vec![number.to_string()],
        taken: number == 1,
        before,
        after,
    };
    Grid {
        title: "bytes".to_string(),
        headings: vec!["row"],
        column: ("column", 1),
        group,
        rows: rows.enumerate().map(row).collect(),
        taken_group: None,
    }
}

#[test]
fn panes_stand_side_by_side_with_marks_under_changed_bytes() {
    let after = [1, 2, 3, 4, 9, 6, 7, 9];
    let lines = grid(&[1, 2, 3, 4, 5, 6, 7, 8], &after, 4, 2).lines(&view(false, false, 80));
    let expected = [
        "  bytes",
        "      row  before      after",
        "   column  0    1      0    1",
        "        0  0102 0304   0102 0304",
        "  >     1  0506 0708   0906 0709",
        "                       ^^     ^^",
    ];
    assert_eq!(lines, expected);
}

#[test]
fn colour_takes_the_place_of_marks() {
    let lines = grid(&[1, 2], &[1, 3], 2, 1).lines(&view(true, false, 80));
    assert_eq!(lines.len(), 4);
    assert!(lines[3].contains("01 \u{1b}[31m02"));
    assert!(lines[3].contains("01 \u{1b}[1;4;32m03"));
    assert!(!lines[3].contains('^'));
}

#[test]
fn what_did_not_change_is_shown_once() {
    let lines = grid(&[1, 2], &[1, 2], 2, 1).lines(&view(false, false, 80));
    assert!(lines[1].ends_with("content"));
    assert_eq!(lines[3], "        0  01 02");
    assert_eq!(lines.len(), 4);
}

#[test]
fn a_narrow_view_stacks_the_panes() {
    let before = [0; 16];
    let lines = grid(&before, &[7; 16], 16, 4).lines(&view(false, false, 60));
    assert!(lines[1].ends_with("before") && lines[4].ends_with("after"));
    assert_eq!(lines[7].trim(), ["^^^^^^^^"; 4].join(" "));
}

#[test]
fn a_large_grid_is_a_window_that_says_what_it_leaves_out() {
    let before = vec![0; 256 * 256];
    let mut after = before.clone();
    after[100 * 256 + 50] = 1;
    let large = grid(&before, &after, 256, 1);
    let lines = large.lines(&view(false, false, 80));
    assert_eq!(lines.len(), 3 + 5 + 1 + 1);
    assert!(lines[..9].iter().all(|line| line.len() <= 80));
    let message = "left out: 251 of 256 rows and 245 of the 256 bytes of each row, \
                   with no changed byte among them (--all shows everything)";
    assert_eq!(lines[9].trim(), message);
    let all = large.lines(&view(false, true, 80));
    assert_eq!(all.len(), 1 + 2 * (2 + 256) + 1);
}

#[test]
fn changed_bytes_that_are_left_out_are_counted() {
    let (before, after) = (vec![0; 64 * 64], vec![1; 64 * 64]);
    let lines = grid(&before, &after, 64, 16).lines(&view(false, false, 80));
    let last = lines.last().expect("there are lines");
    assert!(
        last.contains("48 of 64 rows and 32 of the 64 bytes of each row"),
        "{last}"
    );
    assert!(
        last.contains("with 3584 changed bytes among them"),
        "{last}"
    );
}

#[test]
fn the_taken_column_is_marked_even_at_the_edge() {
    let bytes = [0; 128];
    let mut wide = grid(&bytes, &bytes, 128, 1);
    wide.taken_group = Some(127);
    let lines = wide.lines(&view(false, false, 60));
    assert!(lines[2].ends_with(" >127"), "{}", lines[2]);
    assert_eq!(lines[2].len(), lines[3].len());
    // No room at all is no reason to fail.
    for width in 0..20 {
        wide.lines(&view(false, false, width));
    }
}
