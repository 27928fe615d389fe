//! Which task a command line asks for.

use super::given::Given;
use super::{Form, Running, Sheet, Task};
use crate::digits::{decimal, word};
use crate::input::Source;
use crate::outputs::Outputs;
use crate::script::vector_bytes;
use crate::take::Question;
use crate::tile::named;
use crate::wording::quoted;
use sme_move::Tile;
use std::ffi::{OsStr, OsString};

/// The options that a sheet has, and the tasks that have one.
const OF_SHEET: [&str; 2] = ["--vector-bytes", "--svg"];
const WITH_SHEET: &str = "--map, --take or --give-up";

/// The options that only a script has.
const OF_RUN: [&str; 6] = [
    "--strict",
    "--quiet",
    "--json",
    "--words-out",
    "--memory-out",
    "--array-out",
];

impl Given {
    pub fn task(&self) -> Result<Task, String> {
        if self.has("--help") {
            return Ok(Task::Help);
        }
        if self.has("--version") {
            return Ok(Task::Version);
        }
        let tasks: Vec<&str> = ["--decode", "--encode", "--map", "--take", "--give-up"]
            .into_iter()
            .filter(|name| self.given(name))
            .collect();
        if !tasks.is_empty() {
            self.without(&OF_RUN, "a script")?;
        }
        match tasks.as_slice() {
            ["--decode"] => self.decode(),
            ["--encode"] => self.encode(),
            ["--map"] => self.map(),
            ["--take"] => self.ask(Question::Take {
                element_bytes: self.number("--take", 0)?,
            }),
            ["--give-up"] => {
                let given_up = self.value("--give-up").unwrap_or_default();
                self.ask(Question::GiveUp(tile("a tile to give up", given_up)?))
            }
            [one, other, ..] => Err(together(one, other)),
            _ => self.run(),
        }
    }

    fn decode(&self) -> Result<Task, String> {
        self.without(&OF_SHEET, WITH_SHEET)?;
        if self.operands.is_empty() {
            return Err("--decode takes one or more words".to_string());
        }
        let words = self
            .operands
            .iter()
            .map(|text| word(&text.to_string_lossy()));
        Ok(Task::Decode {
            level: self.number("--level", 3)?,
            words: words.collect::<Result<_, _>>()?,
        })
    }

    fn encode(&self) -> Result<Task, String> {
        self.without(&["--level"], "--decode")?;
        self.without(&OF_SHEET, WITH_SHEET)?;
        let numbers: Vec<u8> = self
            .operands
            .iter()
            .map(|operand| small(operand))
            .collect::<Result<_, _>>()?;
        let (groups, rest) = (numbers.chunks_exact(11), numbers.len() % 11);
        if numbers.is_empty() || rest != 0 {
            let found = numbers.len();
            return Err(format!(
                "--encode takes the eleven numbers of each word, not {found} numbers"
            ));
        }
        let group = |group: &[u8]| std::array::from_fn(|i| group[i]);
        Ok(Task::Encode(groups.map(group).collect()))
    }

    fn map(&self) -> Result<Task, String> {
        self.without(&["--level"], "--decode")?;
        if let Some(operand) = self.operands.first() {
            return Err(format!(
                "--map takes no file, but {} is given",
                quoted(operand)
            ));
        }
        let sheet = self.sheet()?;
        Ok(Task::Map { sheet })
    }

    fn ask(&self, question: Question) -> Result<Task, String> {
        self.without(&["--level"], "--decode")?;
        let held = self.operands.iter();
        let held = held.map(|operand| tile("a held tile", operand));
        Ok(Task::Ask {
            question,
            held: held.collect::<Result<_, _>>()?,
            sheet: self.sheet()?,
        })
    }

    fn sheet(&self) -> Result<Sheet, String> {
        let length = self.value("--vector-bytes").map(OsStr::to_string_lossy);
        Ok(Sheet {
            vector_bytes: vector_bytes(length.as_deref().unwrap_or("16"))? as usize,
            drawing: self.value("--svg").map(OsStr::to_os_string),
        })
    }

    fn run(&self) -> Result<Task, String> {
        self.without(&["--level"], "--decode")?;
        self.without(&OF_SHEET, WITH_SHEET)?;
        let source = match self.operands.as_slice() {
            [] => Source::Example,
            [operand] if operand == "-" => Source::StandardInput,
            [operand] => Source::File(operand.clone()),
            [_, second, ..] => {
                return Err(format!("one file is enough; {} is more", quoted(second)))
            }
        };
        let form = match (self.has("--quiet"), self.has("--json")) {
            (false, false) => Form::Full,
            (true, false) => Form::Brief,
            (false, true) => Form::Json,
            (true, true) => return Err(together("--quiet", "--json")),
        };
        let outputs = Outputs {
            words: self.output("--words-out")?,
            memory: self.output("--memory-out")?,
            array: self.output("--array-out")?,
        };
        outputs.check(&source)?;
        Ok(Task::Run(Running {
            source,
            strict: self.has("--strict"),
            form,
            outputs,
        }))
    }

    /// A file that gets bytes. Standard output has the report.
    fn output(&self, name: &str) -> Result<Option<OsString>, String> {
        match self.value(name) {
            Some(file) if file == "-" => Err(format!("{name} takes a file, not -")),
            file => Ok(file.map(OsStr::to_os_string)),
        }
    }
}

/// One of the eleven numbers of an operation. Whether there is such an operation is the unit's to answer.
fn small(operand: &OsStr) -> Result<u8, String> {
    let number = operand.to_str().and_then(decimal);
    let number = number.and_then(|number| u8::try_from(number).ok());
    number.ok_or_else(|| {
        let operand = quoted(operand);
        format!("--encode takes decimal numbers of at most 255, not {operand}")
    })
}

/// A tile that is held, or to be given up. Whether it exists is the unit's to answer.
fn tile(what: &str, operand: &OsStr) -> Result<Tile, String> {
    let tile = operand.to_str().and_then(named);
    tile.ok_or_else(|| {
        let operand = quoted(operand);
        format!("{what} is its element bytes and its number, such as 4:1, not {operand}")
    })
}

fn together(one: &str, other: &str) -> String {
    format!("{one} and {other} do not go together")
}
