//! A few rows in each part of the table.

use super::*;

fn row(name: &str, vector_bytes: Option<usize>, goal: Option<Goal>) -> Row {
    Row {
        record: Record {
            name: name.to_string(),
            vector_bytes,
            archive: 30.0,
            copy: Some(3.0),
            strided: None,
        },
        kind: String::new(),
        second: Some(99.96),
        part: if vector_bytes.is_some() {
            Part::Words
        } else {
            Part::Tiles
        },
        room: None,
        goal,
    }
}

/// A row by predicate that takes so long.
fn by_predicate(name: &str, archive: f64, room: Option<f64>, goal: Option<Goal>) -> Row {
    let mut row = row(name, Some(256), goal);
    row.record.archive = archive;
    Row {
        part: Part::Predicates,
        room,
        ..row
    }
}

fn text(rows: &[Row]) -> String {
    text_with_pairs(rows, &[])
}

fn text_with_pairs(rows: &[Row], pairs: &[Pair]) -> String {
    let effort = Effort {
        rounds: 2,
        batches: 3,
        long_rounds: 1,
    };
    let table = Table {
        rows,
        pairs,
        effort,
    };
    table.to_string()
}

#[test]
fn words_long_buffers_and_tiles_have_their_tables() {
    let cliff = Row {
        room: Some(4.0),
        ..row("load, inside", Some(256), Some(Goal::Beside(5.0)))
    };
    let long = Row {
        part: Part::LongBuffers,
        room: Some(25.0),
        ..row("load, long", Some(64), None)
    };
    let rows = [
        row("load", Some(16), Some(Goal::Copies(12.0))),
        long,
        cliff,
        row("take", None, Some(Goal::Nanoseconds(2000.0))),
    ];
    let expected = "\
nanoseconds per call, least of 2 rounds of 3 batches
operation    length   archive    second      copy   strided    /copy /strided    /room  goal
load             16      30.0     100.0       3.0         -    10.00        -        -  12.0
load, inside    256      30.0     100.0       3.0         -    10.00        -     7.50   5.0  missed
long buffers: close is the same call in buffers for its own vectors
operation  length   archive    second     close   /close
load, long     64      30.0     100.0      25.0     1.20
tiles: putting the held ones back (copy) is in the other times
operation   archive    second      copy     goal
take           30.0     100.0       3.0   2000.0
2 goals met, 1 missed
";
    assert_eq!(text(&rows), expected);
}

/// A goal stands behind its ratio, and the goals of pairs count too.
#[test]
fn rows_by_predicate_have_their_table() {
    let rows = [
        by_predicate("move, all", 15.0, None, Some(Goal::Copies(5.5))),
        by_predicate("move, random", 45.0, Some(15.0), None),
        row("load", Some(16), None),
        by_predicate("move, none", 20.0, Some(15.0), Some(Goal::Beside(1.2))),
        by_predicate("move, half", 24.9, Some(15.0), Some(Goal::Copies(8.0))),
    ];
    let over = |name: &str, second: &str, most| Pair {
        name: name.to_string(),
        lines: ["move, all", second].map(str::to_string),
        vector_bytes: 256,
        most,
        part: Part::Predicates,
    };
    let pairs = [
        over("all over half", "move, half", 0.6),
        over("all over random", "move, random", 0.6),
        over("all over other", "move, other", 0.6),
    ];
    let expected = "\
nanoseconds per call, least of 2 rounds of 3 batches
operation length   archive    second      copy   strided    /copy /strided    /room  goal
load          16      30.0     100.0       3.0         -    10.00        -        -     -
rows by predicate: all is the same call with all elements active
operation    length   archive    second      copy    /copy  goal     /all  goal
move, all       256      15.0     100.0       3.0     5.00   5.5        -     -
move, random    256      45.0     100.0       3.0    15.00     -     3.00     -
move, none      256      20.0     100.0       3.0     6.67     -     1.33   1.2  missed
move, half      256      24.9     100.0       3.0     8.30   8.0     1.66     -  missed
all over half: 0.60 (goal 0.6)  missed
all over random: 0.33 (goal 0.6)
2 goals met, 3 missed
";
    assert_eq!(text_with_pairs(&rows, &pairs), expected);
}

/// A pair stands below the rows of its own part.
#[test]
fn listings_have_their_table() {
    let listing = |name: &str, archive, goal| {
        let mut row = row(name, Some(16), goal);
        (row.record.archive, row.record.copy) = (archive, None);
        Row {
            part: Part::Listings,
            second: None,
            room: Some(16.0),
            ..row
        }
    };
    let rows = [
        listing("listing of 16", 8.0, None),
        row("load", Some(16), None),
        listing("listing of 256", 12.4, Some(Goal::Beside(0.75))),
        by_predicate("move, all", 15.0, None, None),
    ];
    let pair = Pair {
        name: "256 over 16".to_string(),
        lines: ["listing of 256", "listing of 16"].map(str::to_string),
        vector_bytes: 16,
        most: 1.2,
        part: Part::Listings,
    };
    let expected = "\
nanoseconds per call, least of 2 rounds of 3 batches
operation length   archive    second      copy   strided    /copy /strided    /room  goal
load          16      30.0     100.0       3.0         -    10.00        -        -     -
rows by predicate: all is the same call with all elements active
operation length   archive    second      copy    /copy  goal     /all  goal
move, all    256      15.0     100.0       3.0     5.00     -        -     -
listings, nanoseconds per word: single is the same words by single calls
operation      length   archive    single  /single  goal
listing of 16      16       8.0      16.0     0.50     -
listing of 256     16      12.4      16.0     0.78  0.75  missed
256 over 16: 1.55 (goal 1.2)  missed
0 goals met, 2 missed
";
    assert_eq!(text_with_pairs(&rows, &[pair]), expected);
}

#[test]
fn a_table_without_rows_is_left_out() {
    let printed = text(&[row("load", Some(16), None)]);
    assert!(!printed.contains("tiles"));
    assert!(!printed.contains("predicate"));
    assert!(!printed.contains("listing"));
    assert!(printed.ends_with("0 goals met, 0 missed\n"));
    let printed = text(&[row("take", None, None)]);
    assert!(!printed.contains("strided"));
}
