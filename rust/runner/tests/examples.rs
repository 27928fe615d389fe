//! The scripts of examples/scripts: each shows one kind of word, the stack check off, short vectors in long buffers, or
//! the transposition of a matrix, and what it expects holds, and fails if it is changed.

mod common;

use common::{piped, runner};
use sme_move::{decode, Operation};
use std::mem::{discriminant, Discriminant};

/// The kinds in the order of their numbers.
const KINDS: [&str; 7] = [
    "move-to-tile",
    "move-and-zero-from-tile",
    "move-from-array",
    "move-and-zero-from-array",
    "store",
    "move-from-tile",
    "load",
];

fn path(name: &str) -> String {
    format!(
        "{}/../../examples/scripts/{name}.txt",
        env!("CARGO_MANIFEST_DIR")
    )
}

fn script(name: &str) -> String {
    let path = path(name);
    std::fs::read_to_string(&path).unwrap_or_else(|error| panic!("{path}: {error}"))
}

fn names() -> impl Iterator<Item = &'static str> {
    let others = ["long-buffers", "stack-check", "transpose"];
    KINDS.into_iter().chain(others)
}

/// The operations of a script's words.
fn operations(script: &str) -> Vec<Operation> {
    let lines = script.lines().filter_map(|line| line.strip_prefix("word "));
    let words = lines.flat_map(|line| line.split('#').next().unwrap_or("").split_whitespace());
    let operation = |word: &str| {
        let word = u32::from_str_radix(word, 16).expect("a word is hexadecimal");
        decode(word, 3).expect("the word decodes")
    };
    words.map(operation).collect()
}

#[test]
fn what_they_expect_holds() {
    for name in names() {
        let output = runner(&["--strict", "--quiet", &path(name)]).output();
        let output = output.expect("the program starts");
        let text = String::from_utf8_lossy(&output.stdout);
        assert_eq!(output.status.code(), Some(0), "{name}: {text}");
        assert!(
            text.trim_end().ends_with(" met, 0 not met"),
            "{name}: {text}"
        );
    }
}

#[test]
fn there_is_one_for_each_kind() {
    let kinds = KINDS.map(|name| {
        let operations = operations(&script(name));
        let kind: Discriminant<Operation> = discriminant(&operations[0]);
        assert!(
            operations.iter().all(|other| discriminant(other) == kind),
            "{name}"
        );
        let numbers = sme_move::Fields::from(operations[0]);
        numbers.kind
    });
    assert_eq!(kinds, [1, 2, 3, 4, 5, 6, 7]);
    let folder = concat!(env!("CARGO_MANIFEST_DIR"), "/../../examples/scripts");
    let files = std::fs::read_dir(folder).expect("the folder is there");
    assert_eq!(files.count(), names().count());
}

/// The last digit of an expectation is changed, which is one of the last byte's or of an answer's.
fn changed(line: &str) -> String {
    let digit = line.chars().last().expect("an expectation is not empty");
    let other = match digit {
        '2' => '3',
        _ => '2',
    };
    format!("{}{other}", &line[..line.len() - 1])
}

#[test]
fn no_expectation_holds_when_it_is_changed() {
    for name in names() {
        let script = script(name);
        let lines: Vec<&str> = script.lines().collect();
        for (number, line) in lines.iter().enumerate() {
            if line.starts_with("expect ") {
                let wrong = changed(line);
                let mut lines = lines.clone();
                lines[number] = &wrong;
                let output = piped(&["-", "--quiet"], lines.join("\n").as_bytes());
                assert_eq!(output.status.code(), Some(3), "{name}: {wrong}");
            }
        }
    }
}
