//! Two runs of a few rows.

use super::*;
use crate::row::Part;

fn record(name: &str, vector_bytes: Option<usize>, archive: f64) -> Record {
    Record {
        name: name.to_string(),
        vector_bytes,
        archive,
        copy: None,
        strided: None,
    }
}

fn row(kind: &str, record: Record) -> Row {
    Row {
        record,
        kind: kind.to_string(),
        second: None,
        part: Part::Words,
        room: None,
        goal: None,
    }
}

/// Rows of 16 bytes that took so long now.
fn rows(times: &[(&str, &str, f64)]) -> Vec<Row> {
    let row =
        |&(name, kind, archive): &(&str, &str, f64)| row(kind, record(name, Some(16), archive));
    times.iter().map(row).collect()
}

/// Rows of 16 bytes that took so long then.
fn earlier(times: &[(&str, f64)]) -> Vec<Record> {
    let record = |&(name, archive): &(&str, f64)| record(name, Some(16), archive);
    times.iter().map(record).collect()
}

fn names<'a>(records: &[&'a Record]) -> Vec<&'a str> {
    records.iter().map(|record| record.name.as_str()).collect()
}

fn near(one: f64, other: f64) -> bool {
    (one - other).abs() < 1e-9
}

#[test]
fn within_five_percent_is_the_same() {
    for (ratio, change) in [
        (0.5, Change::Faster),
        (0.949, Change::Faster),
        (0.951, Change::Same),
        (1.0, Change::Same),
        (1.049, Change::Same),
        (1.051, Change::Slower),
        (2.0, Change::Slower),
    ] {
        assert_eq!(Change::of(ratio), change, "{ratio}");
    }
}

#[test]
fn rows_are_found_by_name_and_length() {
    let now = [
        row("load", record("load", Some(16), 10.0)),
        row("load", record("load", Some(64), 30.0)),
        row("take", record("take", None, 5.0)),
    ];
    let then = [
        record("take", None, 10.0),
        record("load", Some(64), 20.0),
        record("load", Some(16), 40.0),
    ];
    let compared = Comparison::new(&now, &then, |_| true);
    let ratios: Vec<_> = compared.both.iter().map(Both::ratio).collect();
    assert_eq!(ratios, [0.25, 1.5, 0.5]);
    assert!(compared.only_now.is_empty() && compared.only_then.is_empty());
    let counts = [Change::Faster, Change::Slower, Change::Same].map(|own| compared.count(own));
    assert_eq!(counts, [2, 1, 0]);
}

#[test]
fn rows_that_one_run_lacks_are_told() {
    let now = rows(&[("a", "x", 1.0), ("new", "x", 1.0)]);
    let then = earlier(&[("old, m=1", 1.0), ("a", 1.0), ("old, m=2", 1.0)]);
    let compared = Comparison::new(&now, &then, |_| true);
    assert_eq!(names(&compared.only_now), ["new"]);
    assert_eq!(names(&compared.only_then), ["old, m=1", "old, m=2"]);
    assert_eq!(compared.both.len(), 1);
}

/// What was not to be timed is not missed, and what was timed is compared
/// even if it was only there beside what was asked for.
#[test]
fn rows_that_were_not_asked_for_are_not_missed() {
    let now = rows(&[("a, m=1", "x", 1.0), ("a", "x", 1.0)]);
    let then = earlier(&[("a, m=1", 1.0), ("a", 1.0), ("b, m=1", 1.0), ("b", 1.0)]);
    let compared = Comparison::new(&now, &then, |name| name.contains("m=1"));
    assert_eq!(compared.both.len(), 2);
    assert_eq!(names(&compared.only_then), ["b, m=1"]);
    assert!(compared.only_now.is_empty());
}

#[test]
fn means_are_geometric_and_by_kind() {
    let now = rows(&[
        ("b1", "second", 20.0),
        ("a1", "first", 40.0),
        ("b2", "second", 5.0),
        ("new", "third", 1.0),
    ]);
    let then = earlier(&[("a1", 10.0), ("b1", 10.0), ("b2", 10.0)]);
    let compared = Comparison::new(&now, &then, |_| true);
    let kinds = compared.kinds();
    let told: Vec<_> = kinds.iter().map(|&(kind, rows, _)| (kind, rows)).collect();
    assert_eq!(told, [("second", 2), ("first", 1)]);
    assert!(near(kinds[0].2, 1.0) && near(kinds[1].2, 4.0), "{kinds:?}");
    let mean = compared.mean().expect("three ratios");
    assert!(near(mean, 4f64.cbrt()), "{mean}");
    assert_eq!(geometric_mean([].into_iter()), None);
}

#[test]
fn other_contestants_tell_of_the_machine() {
    let times = |copy, strided| Record {
        copy,
        strided,
        ..record("a", Some(16), 1.0)
    };
    let now = [row("x", times(Some(3.0), None))];
    let then = [times(Some(2.0), Some(1.0))];
    let compared = Comparison::new(&now, &then, |_| true);
    let copies = compared.mean_of(|record| record.copy);
    assert!(copies.is_some_and(|mean| near(mean, 1.5)));
    assert_eq!(compared.mean_of(|record| record.strided), None);
}

#[test]
fn all_is_printed() {
    let now = rows(&[
        ("load", "load", 10.0),
        ("store", "store", 20.0),
        ("new", "new", 1.0),
    ]);
    let then = earlier(&[("load", 20.0), ("store", 20.1), ("old", 1.0)]);
    let text = Comparison::new(&now, &then, |_| true).to_string();
    let expected = "\
the archive then and now, nanoseconds per call
operation length      then       now now/then
load          16      20.0      10.0     0.50  faster
store         16      20.1      20.0     1.00
1 rows faster, 0 slower, 1 the same within 5 %
geometric means of now/then
kind   rows now/then
load      1    0.500
store     1    0.995
all       2    0.705
1 rows that only this run has:
  new     16
1 rows that only the earlier run has:
  old     16
";
    assert_eq!(text, expected);
}
