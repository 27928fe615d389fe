//! The lines: which listings are timed.

use crate::active::Active;
use crate::list::arrays;
use crate::list::sliced::{Form, Sliced, FROM_TILE, LOAD, STORE, TO_TILE, ZEROING_FROM_TILE};
use crate::pair::Pair;
use crate::row::{Goal, Part};
use crate::task::Task;
use sme_move::{Direction, Refusal};

/// The words of a listing, but where its length is what is timed.
const WORDS: usize = 256;
/// The lengths by which growth shows, of rows of the shortest vectors.
const LENGTHS: [usize; 3] = [16, WORDS, 4096];
/// How many words are behind a refused one.
const BEHIND: usize = 4096;
const SHORTEST: usize = 16;
const LONGEST: usize = 256;
/// A word of a row that is moved in a listing is to take at most so much of
/// the time of a single call.
const GOAL: Goal = Goal::Beside(0.75);
/// A word of the longest listing is to take at most so many times what one of
/// the shortest takes; and a listing whose first word is refused what that
/// word takes alone, whatever is behind it.
const GROWTH: f64 = 1.2;
/// A word without an encoding.
const REFUSED: u32 = 0xC000_0010;

/// A listing and what it must come to.
#[derive(Clone)]
pub struct Line {
    pub name: String,
    /// What it is counted under where runs are compared.
    pub kind: String,
    pub words: Vec<u32>,
    /// The answer that it must get, and the words done.
    pub answer: u32,
    pub done: usize,
    /// The call whose machine it runs on.
    pub task: Task,
    pub goal: Option<Goal>,
}

/// The lines in groups, each of which is timed in turns.
pub fn groups() -> Vec<Vec<Line>> {
    let mut groups = vec![LENGTHS
        .map(|words| of_move(TO_TILE, SHORTEST, words))
        .into()];
    groups.extend(kinds().map(|line| vec![line]));
    groups.push(vec![mixed()]);
    groups.push([0, BEHIND].map(refused).into());
    groups
}

/// Listings of one word, but for the one that growth shows by.
fn kinds() -> impl Iterator<Item = Line> {
    let moves = [
        of_move(TO_TILE, LONGEST, WORDS),
        of_move(FROM_TILE, SHORTEST, WORDS),
        of_move(FROM_TILE, LONGEST, WORDS),
    ];
    let [_, four, ..] = arrays::tasks(LONGEST);
    let others = [
        row(ZEROING_FROM_TILE, SHORTEST),
        row(ZEROING_FROM_TILE, LONGEST),
        row(LOAD, LONGEST),
        row(STORE, LONGEST),
        column(64),
        four,
    ];
    let others = others.map(|task| of_one(task, WORDS));
    moves.into_iter().chain(others)
}

/// A row of bytes, all of them active.
fn row(sliced: Sliced, vector_bytes: usize) -> Task {
    task(sliced, vector_bytes, 1, Direction::Horizontal)
}

/// A column of 4-byte elements that is moved to a tile.
fn column(vector_bytes: usize) -> Task {
    task(TO_TILE, vector_bytes, 4, Direction::Vertical)
}

/// The call, named as it is where it is timed by itself.
fn task(sliced: Sliced, vector_bytes: usize, element_bytes: usize, direction: Direction) -> Task {
    let form = Form {
        vector_bytes,
        element_bytes,
        direction,
        active: Active::All,
    };
    if sliced.kind == ZEROING_FROM_TILE.kind {
        sliced.task(form)
    } else {
        sliced.under_predicate(form)
    }
}

/// So many times the same word.
fn of_one(task: Task, words: usize) -> Line {
    Line {
        name: name(words, &task.name),
        kind: "listing".to_string(),
        words: vec![task.word; words],
        answer: 0,
        done: words,
        goal: None,
        task,
    }
}

/// So many times the same move of a row of bytes, which has a goal in listings
/// of the usual length.
fn of_move(sliced: Sliced, vector_bytes: usize, words: usize) -> Line {
    Line {
        goal: (words == WORDS).then_some(GOAL),
        ..of_one(row(sliced, vector_bytes), words)
    }
}

/// Words of every kind in turn, on vectors of 16 bytes.
fn mixed() -> Line {
    let rows = [TO_TILE, LOAD, FROM_TILE, STORE, ZEROING_FROM_TILE];
    let rows = rows.map(|sliced| row(sliced, SHORTEST).word);
    let arrays = arrays::tasks(SHORTEST).map(|task| task.word);
    let turn = rows
        .into_iter()
        .chain(arrays)
        .chain([column(SHORTEST).word]);
    let turn: Vec<u32> = turn.collect();
    Line {
        name: name(WORDS, "mixed"),
        words: turn.into_iter().cycle().take(WORDS).collect(),
        ..of_one(row(TO_TILE, SHORTEST), WORDS)
    }
}

/// A refused word with so many behind it that would be done.
fn refused(behind: usize) -> Line {
    let task = row(TO_TILE, SHORTEST);
    let mut words = vec![task.word; 1 + behind];
    words[0] = REFUSED;
    let answer = Refusal::Undecodable.number();
    Line {
        name: name(words.len(), &format!("answer {answer} at the first")),
        words,
        answer,
        done: 0,
        ..of_one(task, WORDS)
    }
}

fn name(words: usize, what: &str) -> String {
    format!("listing of {words}, {what}")
}

/// The longest listing over the shortest, and the refused word with others
/// behind it over the one without.
pub fn pairs() -> [Pair; 2] {
    let [shortest, _, longest] = LENGTHS.map(|words| of_one(row(TO_TILE, SHORTEST), words));
    let [alone, before] = [0, BEHIND].map(refused);
    [
        growth("a word", longest, shortest),
        growth("a refused first word", before, alone),
    ]
}

/// What one takes in a long listing over what it takes in a short one.
fn growth(one: &str, long: Line, short: Line) -> Pair {
    let [of, over] = [&long, &short].map(|line| line.words.len());
    Pair {
        name: format!("{one} of {of} over one of {over}"),
        lines: [long.name, short.name],
        vector_bytes: SHORTEST,
        most: GROWTH,
        part: Part::Listings,
    }
}
