//! Tiles that a kernel holds: one more is taken, or one given up. What the unit answers, and where the tiles lie.

mod room;
mod svg;

use crate::map;
use crate::paint::{Paint, Style};
use crate::report::item;
use crate::tile::{self, Tile};
use crate::wording::answered;
use room::{Room, Status};
use sme_move::{HeldTiles, Refusal};
use std::io::{self, Write};

/// What the unit is asked.
#[derive(Clone, Copy, Debug, PartialEq)]
pub enum Question {
    /// One more tile with elements of so many bytes.
    Take { element_bytes: u64 },
    /// That a held tile be given up.
    GiveUp(sme_move::Tile),
}

/// What comes of a question that is not refused.
enum Outcome {
    New(sme_move::Tile),
    /// A tile was given up, and these are still held.
    Left {
        given_up: sme_move::Tile,
        held: Vec<sme_move::Tile>,
    },
}

/// What the unit was asked, and its answer. Of the held tiles some may not exist.
pub struct Asked {
    question: Question,
    held: Vec<sme_move::Tile>,
    answer: Result<Outcome, Refusal>,
}

impl Asked {
    pub fn new(question: Question, held: Vec<sme_move::Tile>) -> Asked {
        Asked {
            question,
            answer: answer(question, &held),
            held,
        }
    }

    /// Prints what was asked, the answer, and a table of the array with the tiles that exist.
    pub fn print(&self, out: &mut impl Write, vector_bytes: usize, paint: Paint) -> io::Result<()> {
        let room = self.room(vector_bytes);
        writeln!(out, "{}", paint.text(Style::Heading, &self.asked()))?;
        item(out, "held", &self.held_lines(&room))?;
        item(out, "answer", &[self.answer_line(paint)])?;
        let (name, lines) = self.outcome();
        item(out, name, &lines)?;
        writeln!(out)?;
        let cell = |tile, _| cell(tile, room.status(tile), paint);
        for line in map::table(vector_bytes, " tile       ", cell) {
            writeln!(out, "{line}")?;
        }
        writeln!(out)?;
        let marks: Vec<String> = room.statuses().into_iter().map(legend).collect();
        item(out, "marks", &marks)
    }

    /// A drawing of the array with the tiles that exist.
    pub fn svg(&self, vector_bytes: usize) -> String {
        svg::svg(self, &self.room(vector_bytes))
    }

    fn room(&self, vector_bytes: usize) -> Room {
        let existing = |tile: &sme_move::Tile| Tile::existing(*tile, vector_bytes);
        let (held, new, given_up) = match &self.answer {
            Ok(Outcome::New(new)) => (&self.held, Some(new), None),
            Ok(Outcome::Left { given_up, held }) => (held, None, Some(given_up)),
            Err(_) => (&self.held, None, None),
        };
        Room {
            held: held.iter().filter_map(existing).collect(),
            new: new.and_then(existing),
            given_up: given_up.and_then(existing),
            vector_bytes,
        }
    }

    fn asked(&self) -> String {
        match self.question {
            Question::Take { element_bytes } => {
                format!("one more tile of {element_bytes}-byte elements")
            }
            Question::GiveUp(given) => format!("give up {}", name(given)),
        }
    }

    /// What came of it: the new tile, or those that are still held.
    fn outcome(&self) -> (&'static str, Vec<String>) {
        match (&self.answer, self.question) {
            (Ok(Outcome::New(new)), _) => ("new", vec![name(*new)]),
            (Ok(Outcome::Left { held, .. }), _) => ("left", names(held)),
            (Err(_), Question::Take { .. }) => ("new", names(&[])),
            (Err(_), Question::GiveUp(_)) => ("left", names(&self.held)),
        }
    }

    /// The held tiles, with what is wrong with them.
    fn held_lines(&self, room: &Room) -> Vec<String> {
        if self.held.is_empty() {
            return vec!["none".to_string()];
        }
        let line = |&held: &sme_move::Tile| {
            let wrong = match Tile::existing(held, room.vector_bytes) {
                None => ", which does not exist",
                Some(tile) if room.status(tile) == Status::Clash => {
                    ", which shares bytes with another"
                }
                Some(_) => "",
            };
            tile::name(held.element_bytes, held.number) + wrong
        };
        self.held.iter().map(line).collect()
    }

    fn answer_line(&self, paint: Paint) -> String {
        match &self.answer {
            Ok(_) => answered(0, "done"),
            Err(refusal) => {
                let refusal = *refusal;
                let text = answered(refusal.number(), &self.reason(refusal));
                paint.text(Style::Refused, &text)
            }
        }
    }

    /// Why it was refused. The binding's words are for every function, these for this one.
    fn reason(&self, refusal: Refusal) -> String {
        let bad = "a held tile does not exist, or two share bytes";
        match (refusal, self.question) {
            (Refusal::OutOfRange, Question::Take { element_bytes }) => {
                format!("no element has {element_bytes} bytes")
            }
            (Refusal::NoFreeTile, Question::Take { element_bytes }) => {
                format!("no tile of {element_bytes}-byte elements is free")
            }
            (Refusal::BadHeld, Question::GiveUp(given)) if !self.held.contains(&given) => {
                format!("{} is not held", name(given))
            }
            (Refusal::BadHeld, _) => bad.to_string(),
            (other, _) => other.to_string(),
        }
    }
}

fn answer(question: Question, held: &[sme_move::Tile]) -> Result<Outcome, Refusal> {
    let tiles = HeldTiles::of(held.iter().copied());
    match question {
        Question::Take { element_bytes } => {
            let new = match tiles {
                Ok(mut tiles) => tiles.take(element_bytes),
                // More than sixteen do not get to the unit, but an impossible size goes before them.
                Err(refusal) => HeldTiles::new().take(element_bytes).and(Err(refusal)),
            };
            new.map(Outcome::New)
        }
        Question::GiveUp(given_up) => {
            let mut tiles = tiles?;
            tiles.give_up(given_up)?;
            let held = tiles.iter().collect();
            Ok(Outcome::Left { given_up, held })
        }
    }
}

fn name(tile: sme_move::Tile) -> String {
    tile::name(tile.element_bytes, tile.number)
}

fn names(tiles: &[sme_move::Tile]) -> Vec<String> {
    match tiles {
        [] => vec!["none".to_string()],
        tiles => tiles.iter().copied().map(name).collect(),
    }
}

fn legend(status: Status) -> String {
    format!("{:<6} {}", status.mark(), status.meaning())
}

/// A tile's number and its mark, which tells its status where there is no colour.
fn cell(tile: Tile, status: Status, paint: Paint) -> String {
    let text = format!("{:>5} {:<6}", tile.number, status.mark());
    paint.text(status.style(), &text)
}

#[cfg(test)]
mod tests;
