//! The command line.

mod given;
mod tasks;

use crate::input::Source;
use crate::outputs::Outputs;
use crate::paint::ColorChoice;
use crate::take::Question;
use given::Given;
use sme_move::Tile;
use std::ffi::OsString;

pub enum Task {
    Help,
    Version,
    Run(Running),
    Decode {
        level: u64,
        words: Vec<u32>,
    },
    /// Groups of the eleven numbers of an operation.
    Encode(Vec<[u8; 11]>),
    Map {
        sheet: Sheet,
    },
    /// A question to the unit about held tiles.
    Ask {
        question: Question,
        held: Vec<Tile>,
        sheet: Sheet,
    },
}

/// A script to run.
pub struct Running {
    pub source: Source,
    pub strict: bool,
    pub form: Form,
    pub outputs: Outputs,
}

/// What is printed of a run.
pub enum Form {
    Full,
    Brief,
    Json,
}

/// The array that is shown, and where its drawing goes if that is wanted and no table.
pub struct Sheet {
    pub vector_bytes: usize,
    pub drawing: Option<OsString>,
}

pub struct Command {
    pub task: Task,
    pub color: ColorChoice,
    /// How many columns a grid may have, where that is said.
    pub width: Option<usize>,
    pub all: bool,
}

pub fn parse(arguments: impl Iterator<Item = OsString>) -> Result<Command, String> {
    let given = Given::read(arguments)?;
    let task = given.task()?;
    let color = match given.value("--color").map(|value| value.to_str()) {
        None | Some(Some("auto")) => ColorChoice::Auto,
        Some(Some("always")) => ColorChoice::Always,
        Some(Some("never")) => ColorChoice::Never,
        Some(_) => return Err("--color is auto, always or never".to_string()),
    };
    Ok(Command {
        task,
        color,
        width: given.width()?,
        all: given.has("--all"),
    })
}

#[cfg(test)]
mod tests;
