//! Answers made by hand, and cases that are counted or not.

use super::*;
use crate::case::{Case, Outcome};
use crate::generate::generate;
use crate::worked::case_within;
use second::execute::Mistake;
use second::inputs::random::Random;

/// A load of a row of tile 0 of four bytes: predicate 0, base 1, offset
/// register 2.
const LOAD: u32 = 0xE082_0020;
const STORE: u32 = 0xE0A2_0020;
const VERTICAL: u32 = 0x8000;

/// Vectors of 32 bytes, all elements active, and memory of so many bytes.
fn case(word: u32, memory: usize) -> Case {
    let mut case = case_within(32, 64, word);
    case.p[..4].fill(0xFF);
    case.memory = vec![3; memory];
    case
}

fn run(case: &Case) -> Outcome {
    let mut outcome = Outcome::default();
    outcome.run_second(case, Mistake::None);
    outcome
}

fn counted(cases: &[Case], drawn: Drawn) -> Elements {
    let mut elements = Elements::new(drawn);
    for case in cases {
        elements.add(&View::new(case, &run(case)));
    }
    elements
}

/// What is printed behind a name.
fn line(elements: &Elements, name: &str) -> String {
    let told = elements.to_string();
    let found = told.lines().find(|line| line.starts_with(name));
    let columns = found.expect(name)[name.len()..].split_whitespace();
    columns.collect::<Vec<_>>().join(" ")
}

#[test]
fn answers_are_counted_by_size_direction_and_kind() {
    let mut cases: Vec<Case> = [0, 3, 4, 31].map(|memory| case(LOAD, memory)).into();
    cases.push(case(STORE | VERTICAL, 17));
    let elements = counted(&cases, Drawn::All);
    assert_eq!(line(&elements, "m=4, horizontal"), "0 0 4 2");
    assert_eq!(line(&elements, "m=4, vertical"), "1 1 0 0");
    assert_eq!(line(&elements, "m=8, horizontal"), "0 0 0 0");
    let all = "5 cases, 3 of them for an element above 0";
    assert_eq!(line(&elements, "answer 7: "), all);
    assert_eq!(elements.to_string().lines().count(), 12);
    let mut twice = counted(&cases, Drawn::All);
    twice.merge(elements);
    assert_eq!(line(&twice, "m=4, horizontal"), "0 0 8 4");
}

#[test]
fn other_answers_are_not_counted() {
    let mut off = case(LOAD, 0);
    off.settings.za_on = false;
    let done = case(STORE, 32);
    let moved = case(0xC000_0000, 0);
    let elements = counted(&[off, done, moved], Drawn::All);
    assert_eq!(elements.sum(), Cell::default());
    assert!(elements.impossible().is_empty());
}

/// A run without any lacks each cell that is drawn; bytes are stored by a word
/// of document 01.
#[test]
fn empty_cells_are_told() {
    for (drawn, count) in [
        (Drawn::All, 20),
        (Drawn::Request1, 0),
        (Drawn::Request2, 18),
    ] {
        assert_eq!(Elements::new(drawn).missing().len(), count);
    }
    let elements = counted(&[case(LOAD, 5)], Drawn::Request2);
    let missing = elements.missing();
    assert_eq!(missing.len(), 17);
    let never = |name: &str| missing.contains(&format!("never: {name}, answer 7"));
    assert!(!never("load, m=4, horizontal"));
    assert!(never("load, m=4, vertical"));
    assert!(never("store, m=4, horizontal"));
    assert!(!never("store, m=1, horizontal"));
    assert_eq!(line(&elements, "m=1, vertical"), "- - 0 0");
}

/// One of three is enough and one of four is not, of the size and of all.
#[test]
fn too_few_elements_above_0_are_told() {
    let low = |memory: &[usize]| {
        let cases: Vec<Case> = memory.iter().map(|own| case(LOAD, *own)).collect();
        let mut missing = counted(&cases, Drawn::All).missing();
        missing.retain(|own| !own.ends_with(", answer 7"));
        missing
    };
    let few = "less than one in 3 of the answers 7 are for an element above 0";
    assert!(low(&[0, 1, 9]).is_empty());
    assert_eq!(low(&[0, 1, 9, 2]), [&format!("m=4, {few}"), few]);
    let never = "never: load, m=4, horizontal, answer 7 for an element above 0";
    assert_eq!(low(&[1]), [never, &format!("m=4, {few}"), few]);
}

/// An element that both programs might agree on and that cannot be.
#[test]
fn impossible_elements_are_told() {
    let mut inactive = case(LOAD, 6);
    inactive.p[..4].copy_from_slice(&[0x01, 0xFF, 0xFF, 0xFF]);
    for (case, right) in [
        (case(LOAD, 6), 1),
        (case(STORE, 32), 0),
        (case(0xC000_0010, 0), 0),
        (inactive, 2),
    ] {
        for element in 0..4 {
            let mut outcome = run(&case);
            assert_eq!(outcome.element, right);
            outcome.element = element;
            let mut elements = Elements::new(Drawn::All);
            elements.add(&View::new(&case, &outcome));
            let told = usize::from(element != right);
            assert_eq!(elements.impossible().len(), told, "{:08X}", case.word);
        }
    }
}

/// Few cases are enough for every cell, and for a third in each size.
#[test]
fn cases_reach_every_cell() {
    let mut random = Random::new(13);
    let mut case = Case::empty();
    let mut elements = Elements::new(Drawn::All);
    for _ in 0..30_000 {
        generate(&mut random, &mut case, Drawn::All);
        elements.add(&View::new(&case, &run(&case)));
    }
    assert!(elements.missing().is_empty(), "{:?}", elements.missing());
    assert!(elements.impossible().is_empty());
}
