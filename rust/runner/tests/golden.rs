//! What the program prints, byte for byte. After an intended change:
//! `runner > tests/example.stdout`, `runner tests/scripts/NAME.txt > tests/scripts/NAME.stdout`,
//! `runner --map --svg ../../docs/za-map.svg`, `runner --take 4 2:0 8:3 > tests/take.stdout`,
//! `runner --take 4 2:0 8:3 --svg ../../docs/one-more-tile.svg`.

mod common;

use common::runner;
use sme_move::{encode, Direction, ElementSize, Operation};

/// The output of a run that must succeed.
fn output(arguments: &[&str]) -> String {
    let output = runner(arguments).output().expect("the program starts");
    assert_eq!(output.status.code(), Some(0), "{arguments:?}");
    assert!(output.stderr.is_empty(), "{arguments:?}");
    String::from_utf8(output.stdout).expect("the output is text")
}

fn read(name: &str) -> String {
    let path = format!("{}/{name}", env!("CARGO_MANIFEST_DIR"));
    std::fs::read_to_string(&path).unwrap_or_else(|error| panic!("{path}: {error}"))
}

const SCRIPTS: [&str; 9] = [
    "access", "array", "fault", "fetch", "large", "long", "refused", "store", "top",
];

#[test]
fn the_example_prints_what_is_stored() {
    assert_eq!(output(&[]), read("tests/example.stdout"));
    let file = concat!(env!("CARGO_MANIFEST_DIR"), "/example.txt");
    assert_eq!(output(&[file]), output(&[]));
}

#[test]
fn the_scripts_print_what_is_stored() {
    for name in SCRIPTS {
        let script = format!("{}/tests/scripts/{name}.txt", env!("CARGO_MANIFEST_DIR"));
        assert_eq!(
            output(&[&script]),
            read(&format!("tests/scripts/{name}.stdout")),
            "{name}"
        );
    }
}

#[test]
fn the_stored_drawing_is_what_the_program_draws() {
    let stored = read("../../docs/za-map.svg");
    assert_eq!(output(&["--map", "--svg", "-"]), stored);
    let file = concat!(env!("CARGO_TARGET_TMPDIR"), "/map.svg");
    assert_eq!(
        output(&["--map", "--vector-bytes", "16", "--svg", file]),
        ""
    );
    assert_eq!(
        std::fs::read_to_string(file).expect("the file is written"),
        stored
    );
}

/// A command that takes a tile, whose output is stored.
const TAKE: [&str; 4] = ["--take", "4", "2:0", "8:3"];

#[test]
fn a_taken_tile_prints_what_is_stored() {
    assert_eq!(output(&TAKE), read("tests/take.stdout"));
    let file = concat!(env!("CARGO_TARGET_TMPDIR"), "/take.svg");
    assert_eq!(output(&[&TAKE[..], &["--svg", file]].concat()), "");
    let drawn = std::fs::read_to_string(file).expect("the file is written");
    assert_eq!(drawn, read("../../docs/one-more-tile.svg"));
    assert_eq!(output(&[&TAKE[..], &["--svg", "-"]].concat()), drawn);
}

/// The example's words are those of the operations that its comments name.
#[test]
fn the_example_moves_rows_in_and_columns_out() {
    let (size, tile) = (ElementSize::Bits32, 1);
    let rows = (0..4).map(|row| Operation::MovaToTile {
        size,
        direction: Direction::Horizontal,
        tile,
        offset: row,
        index: 12,
        predicate: u8::from(row == 2),
        vector: row,
    });
    let columns = (0..4).map(|column| Operation::MovazFromTile {
        size,
        direction: Direction::Vertical,
        tile,
        offset: column,
        index: 13,
        vector: 4 + column,
    });
    let words = rows
        .chain(columns)
        .map(|operation| encode(operation).expect("it has a word"));
    let expected: Vec<String> = words.map(|word| format!("{word:08X}")).collect();
    let example = read("example.txt");
    let lines = example
        .lines()
        .filter_map(|line| line.strip_prefix("word "));
    let found: Vec<&str> = lines.map(|line| &line[..8]).collect();
    assert_eq!(found, expected);
}

/// Whether a text is a name that assembler has for a register, a tile or an instruction.
fn is_assembler(text: &str) -> bool {
    let text = text.to_ascii_lowercase();
    let numbered = |prefix: &str| {
        let rest = text.strip_prefix(prefix);
        rest.is_some_and(|rest| rest.starts_with(|c: char| c.is_ascii_digit()))
    };
    ["x", "w", "z", "p", "za", "ld", "st"]
        .into_iter()
        .any(numbered)
        || ["mova", "movaz", "mov", "sp", "xzr", "za"].contains(&text.as_str())
}

#[test]
fn nothing_is_said_in_assembler() {
    let mut texts = vec![output(&["--help"]), output(&[]), output(&["--map"])];
    texts.push(output(&[
        "--decode", "C0000000", "C0020200", "C0064CFC", "C0060A6A", "E03F03E0", "C0025569",
        "C006086A", "C0064EFC", "E0E4EBEB", "E08CC7AE",
    ]));
    texts.push(output(&TAKE));
    texts.push(output(&["--take", "16", "8:3", "4:3", "257:0"]));
    texts.push(output(&["--give-up", "8:3", "2:0", "8:3"]));
    texts.extend(SCRIPTS.map(|name| read(&format!("tests/scripts/{name}.stdout"))));
    texts.extend(SCRIPTS.map(|name| read(&format!("tests/scripts/{name}.txt"))));
    texts.push(read("example.txt"));
    texts.push(read("../../docs/RUNNER.md"));
    texts.push(output(&["--version"]));
    texts.push(output(&[
        "--encode", "4", "0", "0", "0", "3", "8", "0", "11", "0", "0", "2",
    ]));
    for name in ["store", "load", "long-buffers", "stack-check", "transpose"] {
        let script = format!("../../examples/scripts/{name}.txt");
        let file = format!("{}/{script}", env!("CARGO_MANIFEST_DIR"));
        texts.extend([output(&["--json", &file]), output(&[&file]), read(&script)]);
    }
    for text in texts {
        let mut words = text.split(|c: char| !c.is_ascii_alphanumeric());
        assert_eq!(words.find(|word| is_assembler(word)), None);
    }
    assert!(
        ["x12", "W12", "z3", "p0", "za1h", "ZA0", "MOVAZ", "ST1B", "LD1Q"]
            .into_iter()
            .all(is_assembler)
    );
    assert!(is_assembler("ZA") && !is_assembler("word") && !is_assembler("C0800000"));
}
