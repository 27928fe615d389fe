//! The lines ask for what they say, and are what has to be timed.

use super::*;
use crate::contestants;
use crate::machine::{Machine, ADDRESS};
use crate::row::{Goal, Part};
use crate::task::Strided;
use crate::timing::Caller;
use compare::case::{archive_settings, Answered};
use compare::names::{self, FAULT};
use sme_move::{decode_fields, Fields, Kind, Refusal, Settings};
use std::collections::HashSet;

/// Makes one call.
struct Once;

impl Caller for Once {
    fn make<T>(&mut self, mut call: impl FnMut() -> T) {
        call();
    }
}

fn tasks(vector_bytes: usize) -> Vec<Task> {
    groups(vector_bytes).into_iter().flatten().collect()
}

fn all_tasks() -> Vec<Task> {
    VECTOR_LENGTHS.into_iter().flat_map(tasks).collect()
}

/// Whether the contestants left the same bytes.
fn same(one: &Machine, other: &Machine) -> bool {
    one.z[..] == other.z[..] && one.za[..] == other.za[..] && one.memory[..] == other.memory[..]
}

/// The answer that the archive gives a task, with its address and element.
fn answered(task: &Task) -> Answered {
    let mut machine = task.machine();
    let settings = archive_settings(&machine.settings);
    task.callee.function()(settings, task.word, machine.lend())
}

#[test]
fn each_task_is_answered_as_it_says() {
    for task in all_tasks() {
        let length = task.vector_bytes;
        assert_eq!(answered(&task).0, task.answer, "{}, {length}", task.name);
    }
}

/// Both programs do the same, so that their times are of the same work.
#[test]
fn the_second_program_does_what_the_archive_does() {
    for task in all_tasks() {
        if task.callee == Callee::Nothing {
            continue;
        }
        let [mut archive, mut second] = [task.machine(), task.machine()];
        contestants::archive(&task, &mut archive, &mut Once);
        contestants::second(&task, &mut second, &mut Once);
        let length = task.vector_bytes;
        assert!(same(&archive, &second), "{}, {length}", task.name);
    }
}

/// The plain loop of each vertical operation leaves what the unit leaves.
#[test]
fn loops_do_what_the_unit_does() {
    let mut seen = HashSet::new();
    for task in all_tasks() {
        let Some(strided) = task.strided else {
            continue;
        };
        let [mut archive, mut plain] = [task.machine(), task.machine()];
        contestants::archive(&task, &mut archive, &mut Once);
        contestants::strided(strided, &task, &mut plain, &mut Once);
        let length = task.vector_bytes;
        assert!(same(&archive, &plain), "{}, {length}", task.name);
        seen.insert((strided as usize, task.element_bytes));
    }
    assert_eq!(seen.len(), 25);
}

#[test]
fn an_empty_call_changes_nothing() {
    let task = empty_call(16);
    let [mut called, fresh] = [task.machine(), task.machine()];
    contestants::archive(&task, &mut called, &mut Once);
    assert!(same(&called, &fresh));
    assert_eq!(answered(&task), (0, 0, 0));
}

/// The numbers of the word, its kind and its direction.
fn decoded(task: &Task) -> (Fields, Kind, Direction) {
    let fields = decode_fields(task.word, Settings::MAX_LEVEL).expect("it decodes");
    let kind = Kind::of_number(fields.kind).expect("decoded kinds have a name");
    let direction = Direction::of_number(fields.direction).expect("decoded directions have one");
    (fields, kind, direction)
}

/// What the name says is what the word decodes to. Predicate 0 governs, the
/// slice is of the byte tile or of tile 1, and the registers are those that
/// the machine and the plain loops go by.
#[test]
fn words_decode_to_what_names_say() {
    let done = |task: &Task| task.answer == 0 && task.callee == Callee::Archive;
    let mut seen = 0;
    for task in tasks(256).into_iter().filter(done) {
        let (fields, kind, direction) = decoded(&task);
        if names::is_array(kind) {
            assert!(task.name.contains("array"), "{}", task.name);
            continue;
        }
        let way = match direction {
            Direction::Horizontal => "horizontal",
            Direction::Vertical => "vertical",
        };
        let name = names::name(kind);
        let start = format!("{name}, m={}, {way}", fields.element_bytes);
        assert!(task.name.starts_with(&start), "{}, {start}", task.name);
        assert_eq!(usize::from(fields.element_bytes), task.element_bytes);
        let is_vertical = direction == Direction::Vertical;
        assert_eq!(is_vertical, task.strided.is_some());
        assert_eq!(fields.tile, u8::from(task.element_bytes > 1));
        assert_eq!((fields.offset, fields.index, fields.predicate), (0, 12, 0));
        let on_stack = task.name.ends_with("stack misaligned");
        let base = if on_stack { 31 } else { 1 };
        let registers = [fields.vector, fields.base, fields.offset_register];
        let expected = if names::is_access(kind) {
            [0, base, 2]
        } else {
            [1, 0, 0]
        };
        assert_eq!(registers, expected);
        seen += 1;
    }
    assert_eq!(seen, 336);
}

#[test]
fn moves_from_the_array_decode_to_what_names_say() {
    let expected = [
        (Kind::MovaFromArray, 2, "move from array, two"),
        (Kind::MovaFromArray, 4, "move from array, four"),
        (Kind::MovazFromArray, 2, "move and zero from array, two"),
        (Kind::MovazFromArray, 4, "move and zero from array, four"),
    ];
    for (task, (kind, registers, name)) in arrays::tasks(64).into_iter().zip(expected) {
        let (fields, own, _) = decoded(&task);
        assert_eq!((own, fields.registers), (kind, registers));
        assert_eq!((&task.name[..], &task.kind[..]), (name, name));
        assert_eq!(task.copied, usize::from(registers));
        assert_eq!(task.zeroes, kind == Kind::MovazFromArray);
    }
}

/// A name and a vector length tell a line from all others, and stand in a
/// line of a saved table.
#[test]
fn names_differ() {
    let mut seen = HashSet::new();
    for task in all_tasks() {
        assert!(!task.name.contains(['\t', '\n']));
        assert!(
            seen.insert((task.name.clone(), task.vector_bytes)),
            "{}",
            task.name
        );
    }
}

/// Every kind in every size and direction, under every usual predicate.
#[test]
fn every_encoding_is_timed() {
    for vector_bytes in VECTOR_LENGTHS {
        let names: HashSet<_> = tasks(vector_bytes)
            .into_iter()
            .map(|task| task.name)
            .collect();
        for size in [1, 2, 4, 8, 16] {
            for way in ["horizontal", "vertical"] {
                assert!(names.contains(&format!("move and zero from tile, m={size}, {way}")));
                for kind in ["move to tile", "move from tile", "load", "store"] {
                    for active in ["all", "alternating", "sparse", "none"] {
                        let name = format!("{kind}, m={size}, {way}, {active}");
                        assert!(names.contains(&name), "{name}");
                    }
                }
            }
        }
        for name in arrays::tasks(vector_bytes).map(|task| task.name) {
            assert!(names.contains(&name), "{name}");
        }
    }
}

/// A call in long buffers is the call in close ones, of the five operations
/// on a tile in three sizes and both directions, and of the four on the array.
#[test]
fn long_buffers_stand_beside_the_same_call() {
    let mut names = HashSet::new();
    for pair in VECTOR_LENGTHS.into_iter().flat_map(groups) {
        let [close, long] = &pair[..] else {
            continue;
        };
        if long.largest == long.vector_bytes {
            continue;
        }
        assert_eq!((close.vector_bytes, close.largest), (64, 64));
        assert_eq!((long.vector_bytes, long.largest), (64, 256));
        assert_eq!((close.word, close.active), (long.word, long.active));
        assert_eq!(long.name, format!("{}, buffers for 256", close.name));
        assert_eq!((long.strided, long.copied, long.goal), (None, 0, None));
        let [close, machine] = [close.machine(), long.machine()];
        assert_eq!(close.p[..8], machine.p[..8]);
        assert_eq!(machine.za.len(), 16 * close.za.len());
        names.insert(long.name.clone());
    }
    assert_eq!(names.len(), 5 * 3 * 2 + 4);
}

/// The rows by predicate are of four operations in three sizes, each group the
/// same word under seven predicates, of which all elements active comes first.
/// No other group is in that part of the table.
#[test]
fn rows_by_predicate_stand_beside_all() {
    for vector_bytes in VECTOR_LENGTHS {
        let by_predicate = |task: &Task| task.part == Part::Predicates;
        let mut words = HashSet::new();
        for group in groups(vector_bytes) {
            if !group.iter().any(by_predicate) {
                continue;
            }
            assert!(group.iter().all(by_predicate));
            let first = &group[0];
            let end = ", horizontal, all";
            let operation = first.name.strip_suffix(end).expect("all comes first");
            let expected = [
                "all",
                "alternating",
                "none",
                "prefix",
                "whole and empty",
                "whole and half",
                "random",
            ]
            .map(|active| format!("{operation}, horizontal, {active}"));
            let names: Vec<_> = group.iter().map(|task| &task.name[..]).collect();
            assert_eq!(names, expected);
            for task in &group {
                assert_eq!((task.word, &task.kind), (first.word, &first.kind));
                assert_eq!((task.copied, task.strided), (1, None));
            }
            assert!([1, 4, 16].contains(&first.element_bytes));
            words.insert(first.word);
        }
        assert_eq!(words.len(), if vector_bytes == 256 { 12 } else { 0 });
    }
}

/// Both lines of a pair are timed, in one group.
#[test]
fn pairs_are_of_lines_in_turns() {
    let groups = groups(256);
    for (pair, operation) in predicates::pairs()
        .into_iter()
        .zip(["move to tile", "move from tile"])
    {
        let start = format!("{operation}, m=1, horizontal");
        assert_eq!(pair.name, format!("all over alternating, {start}"));
        let lines = ["all", "alternating"].map(|active| format!("{start}, {active}"));
        assert_eq!((&pair.lines, pair.vector_bytes), (&lines, 256));
        let has = |group: &[Task], line: &String| group.iter().any(|task| task.name == *line);
        let together = groups
            .iter()
            .filter(|group| pair.lines.iter().all(|line| has(group, line)));
        assert_eq!(together.count(), 1);
    }
}

/// A call without its room is the call with room, but for where memory is.
#[test]
fn cliffs_stand_beside_the_same_call() {
    for vector_bytes in VECTOR_LENGTHS {
        let pairs = groups(vector_bytes)
            .into_iter()
            .filter(|group| group.len() > 1 && group[1].part == Part::Words);
        let mut names = HashSet::new();
        for pair in pairs {
            let [room, cliff] = &pair[..] else {
                panic!("{} lines", pair.len());
            };
            assert_eq!((room.word, room.active), (cliff.word, cliff.active));
            assert!(cliff.name.starts_with(&format!("{}, memory ", room.name)));
            let [room, cliff_machine] = [room.machine(), cliff.machine()];
            assert_eq!(room.p[..], cliff_machine.p[..]);
            assert!(room.memory.len() > cliff_machine.memory.len());
            names.insert(cliff.name.clone());
        }
        let sizes = if vector_bytes == 16 { 4 } else { 5 };
        let [ends, begins] = ["memory ends inside", "memory begins inside"]
            .map(|which| names.iter().filter(|name| name.ends_with(which)).count());
        assert_eq!((ends, begins), (4 * sizes, 4 * sizes));
    }
}

/// Columns of one active element, and the refusals, for each answer.
#[test]
fn other_cliffs_and_refusals_are_there() {
    for vector_bytes in VECTOR_LENGTHS {
        let tasks = tasks(vector_bytes);
        let answered = |answer| tasks.iter().filter(move |task| task.answer == answer);
        let counts = [1, 2, 3, 4, 5, 6, 7].map(|answer| answered(answer).count());
        assert_eq!(counts, [2, 3, 6, 1, 1, 10, 20]);
        let undecodable = answered(Refusal::Undecodable.number());
        let words: HashSet<_> = undecodable.map(|task| task.word).collect();
        for word in [0, 0xC001_0000, 0xC006_0001, 0xFFFF_FFFF] {
            assert!(words.contains(&word), "{word:08X}");
        }
        let alone = tasks
            .iter()
            .filter(|task| task.name.ends_with("m=16, vertical, last"));
        assert_eq!(alone.count(), if vector_bytes == 16 { 0 } else { 4 });
    }
}

/// Columns under stray bits, of which no predicate byte is empty, and rows
/// whose base is a misaligned stack pointer: all are done.
#[test]
fn cliffs_without_an_active_element_are_there() {
    for vector_bytes in VECTOR_LENGTHS {
        let tasks = tasks(vector_bytes);
        let done = |end| {
            let done = tasks.iter().filter(|task| task.answer == 0);
            done.filter(move |task| task.name.ends_with(end))
        };
        let [columns, none, stray] = [
            "vertical, stray",
            "horizontal, none, stack misaligned",
            "horizontal, stray, stack misaligned",
        ];
        let counts = [columns, none, stray].map(|end| done(end).count());
        assert_eq!(counts, [16, 10, 8]);
        for task in done(columns).chain(done(stray)) {
            let machine = task.machine();
            assert!(!machine.p[..vector_bytes / 8].contains(&0), "{}", task.name);
        }
        for task in done("stack misaligned") {
            assert_eq!(task.machine().x[31] % 16, 8, "{}", task.name);
        }
    }
}

/// Answer 7 is for the first byte, or for one in the middle, as told.
#[test]
fn bytes_outside_are_where_names_say() {
    let outside = |task: &Task| task.answer == FAULT.number();
    for task in all_tasks().into_iter().filter(outside) {
        let (_, address, element) = answered(&task);
        let middle = task.name.ends_with("byte in the middle outside");
        let byte = if middle { task.vector_bytes / 2 } else { 0 };
        assert_eq!(address - ADDRESS, byte as u64, "{}", task.name);
        let outside = byte / task.element_bytes;
        assert_eq!(element, outside as u64, "{}", task.name);
    }
}

/// The goals of the moves are for three sizes, those of loads and stores for
/// rows of 256 bytes and two sizes, and those of cliffs for memory's end. Rows
/// by predicate have others for moves with all and with no element active, and
/// none where the predicate is not a usual one.
#[test]
fn goals_are_for_some_lines() {
    for vector_bytes in VECTOR_LENGTHS {
        let tasks = tasks(vector_bytes);
        let with = |goal| tasks.iter().filter(move |task| task.goal == Some(goal));
        let copies = |most| with(Goal::Copies(most));
        let [loops, ends, none] = [Goal::Loops(1.5), Goal::Beside(5.0), Goal::Beside(1.2)];
        let pairs = if vector_bytes == 16 { 16 } else { 20 };
        let longest = usize::from(vector_bytes == 256);
        let counts = [8.0, 5.5, 6.0, 12.0].map(|most| copies(most).count());
        let by_length = [27 - 12 * longest, 6 * longest, 4 * longest, 12 * longest];
        assert_eq!(counts, by_length);
        let counts = [loops, ends, none].map(|goal| with(goal).count());
        assert_eq!(counts, [27, pairs, 6 * longest]);
        assert!(with(loops).all(|task| task.strided.is_some()));
        assert!(copies(8.0).all(|task| task.name.contains("horizontal")));
        assert!(with(ends).all(|task| task.name.ends_with("memory ends inside")));
        let sized = |task: &Task| ["m=1,", "m=4,"].iter().any(|size| task.name.contains(size));
        assert!(copies(6.0).chain(copies(12.0)).all(sized));
        let moved = |task: &Task| task.name.starts_with("move ");
        assert!(copies(5.5).chain(with(none)).all(moved));
        assert!(copies(5.5).all(|task| task.active == Active::All));
        assert!(with(none).all(|task| task.active == Active::None));
        let mut goals = tasks.iter().filter(|task| task.goal.is_some());
        assert!(goals.all(|task| USUAL.contains(&task.active) || task.goal == Some(ends)));
    }
}

#[test]
fn loops_stand_beside_columns_alone() {
    for task in all_tasks() {
        let close = task.largest == task.vector_bytes;
        let vertical = task.name.contains("vertical") && close;
        assert_eq!(task.strided.is_some(), vertical, "{}", task.name);
        let zeroing = task.strided == Some(Strided::ZeroingFromTile);
        assert!(!zeroing || task.zeroes);
    }
}
