//! Taking a tile and giving one up, beside the second program. Each call
//! begins with the same held tiles, so that they are put back before it: that
//! is in both times, and is also timed alone.

use crate::arguments::Arguments;
use crate::row::{Goal, Part, Record, Row};
use crate::timing::{Caller, Timed, Times, Turn};
use compare::names;
use compare::tiles::call::Call;
use compare::tiles::sets::{self, Set, MOST};
use compare::tiles::state::put;
use second::held::{self, HeldMistake, Tile, ELEMENT_BYTES};
use sme_move::{numbers, Refusal};
use std::hint::black_box;
use std::rc::Rc;

/// At most so many nanoseconds is a call to take.
const GOAL: f64 = 2000.0;

/// The held tiles of both programs, and those that each call begins with.
struct Keeper {
    start: [u64; 2 * MOST],
    tiles: [u64; 2 * MOST],
    count: usize,
    start_list: Vec<Tile>,
    list: Vec<Tile>,
}

/// A contestant: what it does for a call, and its answer.
type Contestant = fn(&mut Keeper, Call) -> u32;

/// In the order of the columns.
const CONTESTANTS: [Contestant; 3] = [Keeper::archive, Keeper::second, Keeper::copy];

impl Keeper {
    fn new() -> Keeper {
        Keeper {
            start: [0; 2 * MOST],
            tiles: [0; 2 * MOST],
            count: 0,
            start_list: Vec::with_capacity(MOST + 1),
            list: Vec::with_capacity(MOST + 1),
        }
    }

    /// Has calls begin with these tiles from now on.
    fn hold(&mut self, tiles: impl Iterator<Item = Tile>) {
        self.start_list.clear();
        self.start_list.extend(tiles);
        put(&mut self.start, &self.start_list);
    }

    /// Puts the array back. The numbers behind the held tiles do not matter.
    fn copy(&mut self, _: Call) -> u32 {
        self.tiles = *black_box(&self.start);
        self.count = self.start_list.len();
        0
    }

    fn archive(&mut self, call: Call) -> u32 {
        self.copy(call);
        let (tiles, count) = (&mut self.tiles, &mut self.count);
        match call {
            Call::Take { element_bytes } => numbers::take_tile(tiles, count, element_bytes).0,
            Call::GiveUp { tile } => {
                numbers::give_up_tile(tiles, count, tile.element_bytes, tile.number)
            }
        }
    }

    fn second(&mut self, call: Call) -> u32 {
        self.list.clone_from(&self.start_list);
        let list = &mut self.list;
        let answered = match call {
            Call::Take { element_bytes } => {
                held::take(list, element_bytes, HeldMistake::None).map(|_| ())
            }
            Call::GiveUp { tile } => held::give_up(list, tile, HeldMistake::None),
        };
        answered.map_or_else(|refusal| u32::from(refusal.number()), |()| 0)
    }
}

/// The lines that are asked for. An error if the archive has another answer
/// than it must.
pub fn chosen(arguments: &Arguments) -> Result<Vec<Box<dyn Timed>>, String> {
    let mut chosen = single_calls(arguments)?;
    let [take, give_up] = [
        "take, mean of all sets and sizes",
        "give up, mean of all sets and tiles held",
    ];
    let wanted = [take, give_up].map(|name| arguments.wants(name));
    if wanted.contains(&true) {
        let sets: Rc<[Set]> = sets::list().into();
        if wanted[0] {
            chosen.push(Box::new(Mean::new(take, &sets, takes)));
        }
        if wanted[1] {
            chosen.push(Box::new(Mean::new(give_up, &sets, give_ups)));
        }
    }
    Ok(chosen)
}

/// Calls with none, half and all of the tiles of 16-byte elements held.
fn single_calls(arguments: &Arguments) -> Result<Vec<Box<dyn Timed>>, String> {
    let asked = Call::Take { element_bytes: 16 };
    let tile = Tile {
        element_bytes: 16,
        number: 0,
    };
    let mut chosen: Vec<Box<dyn Timed>> = Vec::new();
    for (name, call, answers) in [
        (
            "take, m=16",
            asked,
            [Ok(()), Ok(()), Err(Refusal::NoFreeTile)],
        ),
        (
            "give up the first, m=16",
            Call::GiveUp { tile },
            [Err(Refusal::BadHeld), Ok(()), Ok(())],
        ),
    ] {
        for (held, answer) in [0, MOST / 2, MOST].into_iter().zip(answers) {
            let answer = names::number(answer);
            let name = format!("{name}, {held} of m=16 held, answer {answer}");
            if arguments.wants(&name) {
                chosen.push(Box::new(Single::new(name, call, held, answer)?));
            }
        }
    }
    Ok(chosen)
}

/// One call, always with the same tiles held.
struct Single {
    name: String,
    call: Call,
    keeper: Keeper,
    times: [Times; 3],
}

impl Single {
    fn new(name: String, call: Call, held: usize, answer: u32) -> Result<Single, String> {
        let mut keeper = Keeper::new();
        keeper.hold(Tile::all_of(16).take(held));
        let answered = keeper.archive(call);
        if answered != answer {
            return Err(format!("{name}: the archive answers {answered}"));
        }
        Ok(Single {
            name,
            call,
            keeper,
            times: CONTESTANTS.map(|_| Times::new()),
        })
    }
}

impl Timed for Single {
    fn run(&mut self, turn: Turn) {
        for _ in 0..turn.batches {
            for (times, contestant) in self.times.iter_mut().zip(CONTESTANTS) {
                times.make(|| contestant(&mut self.keeper, black_box(self.call)));
            }
        }
    }

    fn rows(&self) -> Vec<Row> {
        vec![row(&self.name, &self.times)]
    }
}

/// The calls that are made of each set, all sets being one batch.
struct Mean<I> {
    name: &'static str,
    sets: Rc<[Set]>,
    calls: fn(Set) -> I,
    count: u32,
    keeper: Keeper,
    times: [Times; 3],
}

impl<I: Iterator<Item = Call>> Mean<I> {
    fn new(name: &'static str, sets: &Rc<[Set]>, calls: fn(Set) -> I) -> Mean<I> {
        Mean {
            name,
            sets: sets.clone(),
            calls,
            count: sets.iter().map(|&set| calls(set).count() as u32).sum(),
            keeper: Keeper::new(),
            times: CONTESTANTS.map(|_| Times::new()),
        }
    }
}

impl<I: Iterator<Item = Call>> Timed for Mean<I> {
    /// A batch is long here, so that a single one will do for some rounds.
    fn run(&mut self, turn: Turn) {
        if !turn.long {
            return;
        }
        for (times, contestant) in self.times.iter_mut().zip(CONTESTANTS) {
            times.pass(self.count, || {
                for &set in self.sets.iter() {
                    self.keeper.hold(set.tiles());
                    for call in (self.calls)(set) {
                        black_box(contestant(&mut self.keeper, black_box(call)));
                    }
                }
            });
        }
    }

    fn rows(&self) -> Vec<Row> {
        vec![row(self.name, &self.times)]
    }
}

/// Each size asked for, whatever is held.
fn takes(_: Set) -> impl Iterator<Item = Call> {
    let take = |element_bytes| Call::Take { element_bytes };
    ELEMENT_BYTES.into_iter().map(take)
}

/// Each held tile given up.
fn give_ups(set: Set) -> impl Iterator<Item = Call> {
    set.tiles().map(|tile| Call::GiveUp { tile })
}

/// The times of the contestants as a line.
fn row(name: &str, times: &[Times; 3]) -> Row {
    let [archive, second, copy] = times.each_ref().map(Times::least);
    let taking = name.starts_with("take");
    Row {
        record: Record {
            name: name.to_string(),
            vector_bytes: None,
            archive,
            copy: Some(copy),
            strided: None,
        },
        kind: if taking { "take" } else { "give up" }.to_string(),
        second: Some(second),
        part: Part::Tiles,
        room: None,
        goal: Some(Goal::Nanoseconds(GOAL)),
    }
}
