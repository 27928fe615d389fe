//! The command line of the benchmark: what it prints, the files that it writes and reads, and its status.

use std::fs;
use std::path::{Path, PathBuf};
use std::process::{Command, Output};

const HEADING: &str =
    "sme_move benchmark, format 1: name, vector length, archive ns, copy ns, strided ns";

fn bench(arguments: &[&str]) -> Output {
    let mut command = Command::new(env!("CARGO_BIN_EXE_bench"));
    command.args(arguments).output().expect("it can be run")
}

/// What a short run of a few lines prints, which must succeed.
fn quick(only: &str, others: &[&str]) -> String {
    let output = bench(&[&["--quick", "--only", only], others].concat());
    assert_eq!(output.status.code(), Some(0), "{output:?}");
    assert!(output.stderr.is_empty(), "{output:?}");
    String::from_utf8(output.stdout).expect("it is text")
}

/// The status of a run that must not succeed, and what it says of it.
fn failure(arguments: &[&str]) -> (Option<i32>, String) {
    let output = bench(arguments);
    assert!(output.stdout.is_empty(), "{output:?}");
    let message = String::from_utf8(output.stderr).expect("it is text");
    (output.status.code(), message)
}

/// A path that no other test uses.
fn path(name: &str) -> PathBuf {
    Path::new(env!("CARGO_TARGET_TMPDIR")).join(format!("bench-{name}.txt"))
}

fn text(path: &Path) -> &str {
    path.to_str().expect("it is text")
}

#[test]
fn help_tells_of_every_option() {
    let output = bench(&["--help"]);
    assert_eq!(output.status.code(), Some(0));
    let help = String::from_utf8(output.stdout).expect("it is text");
    for option in [
        "--quick",
        "--only",
        "--save",
        "--against",
        "--help",
        "SME_MOVE_LIB_DIR",
    ] {
        assert!(help.contains(option), "{option}");
    }
}

#[test]
fn a_command_line_that_is_not_understood_has_status_2() {
    for (arguments, message) in [
        (&["--fast"][..], "bench: --fast: no such option\n"),
        (&["table.txt"], "bench: table.txt: no such option\n"),
        (
            &["--quick", "--save"],
            "bench: --save: a value is missing\n",
        ),
    ] {
        let (status, told) = failure(arguments);
        assert_eq!(status, Some(2));
        assert!(told.starts_with(message), "{told}");
        assert!(told.contains("usage: bench"), "{told}");
    }
}

#[test]
fn lines_are_chosen_by_a_part_of_their_name() {
    let printed = quick("m=4, vertical, first half, memory ends", &[]);
    let lines: Vec<_> = printed.lines().collect();
    // A heading of two lines, loads and stores at five lengths beside the same with room, and the goals.
    assert_eq!(lines.len(), 2 + 5 * 2 * 2 + 1, "{printed}");
    assert!(lines[2].starts_with("load, m=4, vertical, first half "));
    assert!(lines[3].starts_with("load, m=4, vertical, first half, memory ends inside "));
    assert!(lines[22].contains("goals met"));
    let (status, message) = failure(&["--only", "nowhere"]);
    assert_eq!(status, Some(1));
    assert_eq!(message, "bench: no line has 'nowhere' in its name\n");
}

#[test]
fn calls_in_long_buffers_have_a_table_of_their_own() {
    let printed = quick("move from array, two", &[]);
    let lines: Vec<_> = printed.lines().collect();
    // A heading of two lines, five lengths, another heading, the one length in long buffers, and the goals.
    assert_eq!(lines.len(), 2 + 5 + 2 + 1 + 1, "{printed}");
    assert!(lines[7].starts_with("long buffers: "), "{printed}");
    assert!(lines[8].ends_with("/close"), "{printed}");
    assert!(lines[9].starts_with("move from array, two, buffers for 256     64 "));
    // The same call in close buffers is timed with it.
    let printed = quick("move from array, two, buffers for", &[]);
    assert_eq!(printed.lines().count(), 2 + 1 + 2 + 1 + 1, "{printed}");
}

#[test]
fn rows_by_predicate_have_a_table_of_their_own() {
    let printed = quick("move to tile, m=1, horizontal, ", &[]);
    let lines: Vec<_> = printed.lines().collect();
    // A heading of two lines, four predicates at four lengths and one at the fifth, another heading, seven predicates, a pair,
    // another heading and a line for vectors of 64 bytes in buffers for 256, another heading, four lines and a pair for
    // listings, and the goals.
    assert_eq!(
        lines.len(),
        2 + 4 * 4 + 1 + 2 + 7 + 1 + 2 + 1 + 2 + 4 + 1 + 1,
        "{printed}"
    );
    assert!(lines[19].starts_with("rows by predicate: "), "{printed}");
    assert!(
        lines[20].ends_with("/copy  goal     /all  goal"),
        "{printed}"
    );
    assert!(lines[21].starts_with("move to tile, m=1, horizontal, all "));
    assert!(lines[27].starts_with("move to tile, m=1, horizontal, random "));
    let pair = "all over alternating, move to tile, m=1, horizontal: ";
    assert!(lines[28].starts_with(pair), "{printed}");
    // Of the others only the row with all elements active is timed with it, and no pair is.
    let printed = quick("load, m=4, horizontal, random", &[]);
    let lines: Vec<_> = printed.lines().collect();
    assert_eq!(lines.len(), 1 + 2 + 2 + 1, "{printed}");
    assert!(lines[3].starts_with("load, m=4, horizontal, all "));
    assert!(lines[4].starts_with("load, m=4, horizontal, random "));
}

#[test]
fn listings_have_a_table_of_their_own() {
    let printed = quick("listing of ", &[]);
    let lines: Vec<_> = printed.lines().collect();
    // A heading of one line and another of two, three lengths, nine words, a mixed listing, two that are refused, a pair
    // of lengths and a pair of refused ones, and the goals of four moves and both pairs.
    assert_eq!(lines.len(), 1 + 2 + 3 + 9 + 1 + 2 + 2 + 1, "{printed}");
    assert!(lines[1].starts_with("listings, nanoseconds per word: "));
    assert!(lines[2].ends_with(" /single  goal"), "{printed}");
    assert!(lines[3].starts_with("listing of 16, move to tile, m=1, horizontal, all "));
    assert!(lines[15].starts_with("listing of 256, mixed "), "{printed}");
    assert!(lines[18].starts_with("a word of 4096 over one of 16: "));
    assert!(lines[19].starts_with("a refused first word of 4097 over one of 1: "));
    // The refused word alone is timed with the one that has others behind it.
    let printed = quick("listing of 4097", &[]);
    assert_eq!(printed.lines().count(), 1 + 2 + 2 + 1 + 1, "{printed}");
}

#[test]
fn listings_are_saved_and_compared() {
    let saved = path("listings");
    quick("listing of 256, mixed", &["--save", text(&saved)]);
    let lines = fs::read_to_string(&saved).expect("it was written");
    let start = "listing of 256, mixed\t16\t";
    assert!(lines
        .lines()
        .nth(1)
        .is_some_and(|own| own.starts_with(start)));
    let printed = quick("listing of 256, m", &["--against", text(&saved)]);
    for part in ["\nlisting     1 ", "9 rows that only this run has:\n"] {
        assert!(printed.contains(part), "{part:?} in {printed}");
    }
}

/// Rows that earlier tables had among the others are found again, and those of new predicates are told.
#[test]
fn rows_by_predicate_are_compared_with_an_earlier_run() {
    let earlier = path("predicates");
    let row = |active, time| format!("store, m=4, horizontal, {active}\t256\t{time}\t4.0\t-\n");
    let rows = row("all", "1000000.0") + &row("none", "1000000.0");
    fs::write(&earlier, format!("{HEADING}\n{rows}")).expect("it can be written");
    let printed = quick(
        "store, m=4, horizontal, none",
        &["--against", text(&earlier)],
    );
    for part in [
        "2 rows faster, 0 slower, 0 the same within 5 %",
        "\nstore, horizontal     2 ",
    ] {
        assert!(printed.contains(part), "{part:?} in {printed}");
    }
}

#[test]
fn a_saved_run_is_compared_with_a_later_one() {
    let (first, second) = (path("first"), path("second"));
    quick("answer 1, level", &["--save", text(&first)]);
    let saved = fs::read_to_string(&first).expect("it was written");
    let lines: Vec<_> = saved.lines().collect();
    assert_eq!(lines.len(), 6);
    assert_eq!(lines[0], HEADING);
    assert!(lines[1].starts_with("answer 1, level 4\t16\t"), "{saved}");
    let arguments = ["--against", text(&first), "--save", text(&second)];
    let printed = quick("answer 1,", &arguments);
    for part in [
        "now/then",
        " the same within 5 %",
        "\nanswer 1     5 ",
        "\nall          5 ",
        "5 rows that only this run has:\n  answer 1, vector length one more     16\n",
    ] {
        assert!(printed.contains(part), "{part:?} in {printed}");
    }
    let saved = fs::read_to_string(&second).expect("it was written");
    assert_eq!(saved.lines().count(), 11);
}

#[test]
fn a_run_can_be_saved_where_the_earlier_one_was() {
    let path = path("same");
    let row = "answer 5, ZA off\t16\t1000000.0\t-\t-\n";
    fs::write(&path, format!("{HEADING}\n{row}")).expect("it can be written");
    let arguments = ["--against", text(&path), "--save", text(&path)];
    let printed = quick("answer 5", &arguments);
    assert!(printed.contains("1 rows faster, 0 slower, 0 the same within 5 %"));
    assert!(!fs::read_to_string(&path)
        .expect("it is there")
        .contains(row));
}

#[test]
fn a_file_that_cannot_be_used_has_status_1() {
    let malformed = path("malformed");
    let at = text(&malformed);
    for (content, message) in [
        (
            "".to_string(),
            format!("{at}:1: not a table that --save has written"),
        ),
        (
            format!("{}\n", HEADING.replace("format 1", "format 9")),
            format!("{at}:1: the table has format 9, this program reads 1"),
        ),
        (
            format!("{HEADING}\na\t16\t1.0\t-\t-\nb\t16\tlong\t-\t-\n"),
            format!("{at}:3: 'long' is no time"),
        ),
    ] {
        fs::write(&malformed, content).expect("it can be written");
        let told = failure(&["--against", at, "--only", "empty call"]);
        assert_eq!(told, (Some(1), format!("bench: {message}\n")));
    }
    let missing = path("missing");
    let nowhere = missing.join("table.txt");
    for (option, path) in [("--against", &missing), ("--save", &nowhere)] {
        let (status, told) = failure(&[option, text(path), "--only", "empty call"]);
        assert_eq!(status, Some(1));
        assert!(
            told.starts_with(&format!("bench: {}: ", path.display())),
            "{told}"
        );
    }
}
