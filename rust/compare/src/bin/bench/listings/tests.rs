//! The lines are what has to be timed, and both contestants do the same.

use super::contest::{Called, Group};
use super::list::{groups, pairs, Line};
use crate::row::{Goal, Part, Row};
use crate::timing::{Caller, Timed, Turn};
use compare::rows::encoding;
use second::listing;
use std::collections::HashSet;

/// Makes one call.
struct Once;

impl Caller for Once {
    fn make<T>(&mut self, mut call: impl FnMut() -> T) {
        call();
    }
}

fn lines() -> impl Iterator<Item = Line> {
    groups().into_iter().flatten()
}

/// The line of this name and vector length.
fn line(name: &str, vector_bytes: usize) -> Line {
    let is = |line: &Line| line.name == name && line.task.vector_bytes == vector_bytes;
    lines().find(is).expect("there is such a line")
}

#[test]
fn names_differ() {
    let mut seen = HashSet::new();
    for line in lines() {
        assert!(!line.name.contains(['\t', '\n']));
        let key = (line.name.clone(), line.task.vector_bytes);
        assert!(seen.insert(key), "{}", line.name);
    }
    assert_eq!(seen.len(), 15);
}

/// A name says how many words there are, and of which call they are.
#[test]
fn listings_have_the_words_that_names_say() {
    for line in lines() {
        let Line {
            name, words, task, ..
        } = &line;
        let start = format!("listing of {}, ", words.len());
        let what = name.strip_prefix(&start).expect("so many words");
        if *what == task.name {
            assert!(words.iter().all(|word| *word == task.word));
        } else if what == "mixed" {
            let encodings: HashSet<_> = words.iter().map(|word| encoding(*word)).collect();
            assert_eq!(encodings.len(), 10);
            assert!(!encodings.contains(&None));
        } else {
            assert_eq!(what, "answer 3 at the first");
            assert!(words[1..].iter().all(|word| *word == task.word));
        }
    }
}

/// A listing, its words by single calls and the second program leave the same
/// bytes, after the words that the line says.
#[test]
fn contestants_do_the_same() {
    for line in lines() {
        let [mut one, mut other] = [(); 2].map(|()| Called::new(line.clone()));
        one.listing(&mut Once);
        other.singles(&mut Once);
        let mut machine = line.task.machine();
        let words = line.words.iter().flat_map(|word| word.to_le_bytes());
        let bytes: Vec<u8> = words.collect();
        let settings = machine.settings;
        let buffers = second::execute::Buffers {
            x: &machine.x,
            z: &mut machine.z,
            p: &machine.p,
            za: &mut machine.za,
            memory: &mut machine.memory,
        };
        let ran = listing::run(&settings, &bytes, u64::MAX, buffers);
        assert_eq!((ran.answer, ran.done), (line.answer, line.done as u64));
        for own in [&one.machine, &other.machine] {
            assert!(own.z[..] == machine.z[..], "{}", line.name);
            assert!(own.za[..] == machine.za[..], "{}", line.name);
            assert!(own.memory[..] == machine.memory[..], "{}", line.name);
        }
    }
}

#[test]
fn a_wrong_end_is_told() {
    let wrong = |spoil: fn(&mut Line)| {
        let mut line = line("listing of 256, mixed", 16);
        spoil(&mut line);
        Group::new(vec![line]).err()
    };
    let expected = "listing of 256, mixed, vector length 16: \
                    the archive answers 0 after 256 words";
    assert_eq!(wrong(|line| line.answer = 3), Some(expected.to_string()));
    assert_eq!(wrong(|line| line.done = 255), Some(expected.to_string()));
    assert_eq!(wrong(|_| ()), None);
}

/// The goal is for moves of whole rows, to a tile and from one, at both
/// lengths.
#[test]
fn goals_are_for_moves_of_rows() {
    let with_goal: Vec<_> = lines().filter(|line| line.goal.is_some()).collect();
    assert_eq!(with_goal.len(), 4);
    for line in with_goal {
        assert_eq!(line.goal, Some(Goal::Beside(0.75)));
        assert!(line.name.starts_with("listing of 256, move "));
        assert!(line.name.ends_with(" tile, m=1, horizontal, all"));
        assert!([16, 256].contains(&line.task.vector_bytes));
    }
}

/// Both lines of a pair are timed, in one group.
#[test]
fn pairs_are_of_lines_in_turns() {
    let expected = [
        "a word of 4096 over one of 16",
        "a refused first word of 4097 over one of 1",
    ];
    for (pair, name) in pairs().into_iter().zip(expected) {
        assert_eq!((&pair.name[..], pair.part), (name, Part::Listings));
        let has = |group: &[Line], name: &String| group.iter().any(|line| line.name == *name);
        let groups = groups();
        let together = groups
            .iter()
            .filter(|group| pair.lines.iter().all(|line| has(group, line)));
        assert_eq!(together.count(), 1);
    }
}

/// Times are of a word: the call's over the words done, and where none is
/// done those of the call.
#[test]
fn times_are_of_a_word() {
    let row = |name: &str| -> Row {
        let mut group = Group::new(vec![line(name, 16)]).expect("it ends as it must");
        group.run(Turn {
            batches: 1,
            long: false,
        });
        let [row] = &group.rows()[..] else {
            panic!("one line has one row");
        };
        row.clone()
    };
    let all = row("listing of 4096, move to tile, m=1, horizontal, all");
    // A call of so many words takes microseconds, and none of them one.
    assert!(all.record.archive < 1000.0, "{}", all.record.archive);
    let refused = row("listing of 4097, answer 3 at the first");
    for row in [all, refused] {
        assert_eq!(row.part, Part::Listings);
        assert!(row.record.archive > 0.0);
        assert!(row.room.is_some_and(|single| single > 0.0));
    }
}
