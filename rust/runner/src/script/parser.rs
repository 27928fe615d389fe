//! The lines of a script.

use super::draft::Draft;
use super::expect::Expectation;
use super::files::{self, WORD_BYTES};
use super::members::{member, member_bytes};
use super::{Action, Fault, Place, Script, Step, Word};
use crate::digits::{bytes, hexadecimal, shown, word};
use crate::wording::counted;
use sme_move::Settings;
use std::path::Path;

/// The most bytes that memory may have, and the most words that a script may have: far more than a kernel
/// needs, and little enough for a host's memory.
const MAX_MEMORY: usize = 64 << 20;
const MAX_WORDS: usize = 1 << 20;

const STATEMENTS: &str = "vector-bytes, level, streaming, array, memory-address, stack-check, \
                          largest-vector-bytes, register, vector, predicate, array-file, memory, \
                          memory-file, word, words-file, expect";

/// The settings, but for the switch of the array, whose name contents have too.
const SETTINGS: [&str; 6] = [
    "vector-bytes",
    "level",
    "streaming",
    "memory-address",
    "stack-check",
    "largest-vector-bytes",
];

struct Parser<'a> {
    draft: Draft,
    /// The settings, from the first line on that is none.
    settings: Option<Settings>,
    memory: Vec<u8>,
    steps: Vec<Step>,
    words: usize,
    line: usize,
    /// Where files are that the script names.
    folder: &'a Path,
}

/// The script that a text is, or its first fault. Files that it names are in the folder.
pub fn parse(text: &str, folder: &Path) -> Result<Script, Fault> {
    let mut parser = Parser {
        draft: Draft::default(),
        settings: None,
        memory: Vec::new(),
        steps: Vec::new(),
        words: 0,
        line: 0,
        folder,
    };
    for line in text.lines() {
        parser.line += 1;
        parser
            .statement(line)
            .map_err(|message| Fault::of_line(parser.line, message))?;
    }
    // A text without lines has its fault where the first would be.
    let line = parser.line.max(1);
    parser
        .finish()
        .map_err(|message| Fault::of_line(line, message))
}

impl Parser<'_> {
    fn statement(&mut self, line: &str) -> Result<(), String> {
        // A stray carriage return or escape would make the line look other than it is read.
        if let Some(control) = line.chars().find(|&c| c.is_control() && c != '\t') {
            let control = control.escape_debug();
            return Err(format!("the line has a control character, '{control}'"));
        }
        let content = line.split('#').next().unwrap_or_default();
        let tokens: Vec<&str> = content.split_ascii_whitespace().collect();
        let Some((&name, values)) = tokens.split_first() else {
            return Ok(());
        };
        match (name, values) {
            ("array", ["on" | "off", ..]) => self.setting(name, values),
            _ if SETTINGS.contains(&name) => self.setting(name, values),
            ("register", _) => self.register(values),
            ("vector", _) => self.content(Place::Vector, values),
            ("predicate", _) => self.content(Place::Predicate, values),
            ("array", _) => self.content(Place::Array, values),
            ("array-file", _) => self.array_file(path(content)?),
            ("memory", _) => self.memory(values),
            ("memory-file", _) => self.memory_file(path(content)?),
            ("word", _) => self.words(values),
            ("words-file", _) => self.words_file(path(content)?),
            ("expect", _) => self.expect(values),
            _ => {
                let name = shown(name);
                Err(format!("'{name}' is no statement; there are {STATEMENTS}"))
            }
        }
    }

    fn setting(&mut self, name: &str, values: &[&str]) -> Result<(), String> {
        let [value] = values else {
            return Err(format!("'{name}' takes one value, not {}", values.len()));
        };
        if self.settings.is_some() {
            let message = "is a setting, and settings come before all contents and words";
            return Err(format!("'{name}' {message}"));
        }
        self.draft.state(name, value)
    }

    /// The settings, which no later line can change.
    fn settled(&mut self) -> Result<Settings, String> {
        let settings = match self.settings {
            Some(settings) => settings,
            None => self.draft.settings()?,
        };
        self.settings = Some(settings);
        Ok(settings)
    }

    fn register(&mut self, values: &[&str]) -> Result<(), String> {
        self.settled()?;
        let [number, value] = values else {
            return Err("'register' takes a number and a value of 1 to 16 digits".to_string());
        };
        let number = member("register", 32, number)?;
        let value = hexadecimal(value)?;
        self.step(Action::Register { number, value });
        Ok(())
    }

    fn content(&mut self, place: Place, values: &[&str]) -> Result<(), String> {
        let vector_bytes = self.settled()?.vector_bytes as usize;
        let (number, bytes) = member_bytes(place, values, vector_bytes)?;
        self.step(Action::Content {
            place,
            number,
            bytes,
        });
        Ok(())
    }

    fn array_file(&mut self, name: &str) -> Result<(), String> {
        let vector_bytes = self.settled()?.vector_bytes as usize;
        let length = vector_bytes * vector_bytes;
        let bytes = files::contents(self.folder, name, length)?;
        if bytes.len() != length {
            let (name, found) = (shown(name), counted(bytes.len(), "byte"));
            return Err(format!("'{name}' has {found}; the array has {length}"));
        }
        self.step(Action::Array(bytes));
        Ok(())
    }

    fn memory(&mut self, values: &[&str]) -> Result<(), String> {
        self.memory_may_grow("memory")?;
        if values.is_empty() {
            return Err("'memory' takes one or more bytes".to_string());
        }
        self.memory.extend(bytes(values)?);
        if self.memory.len() > MAX_MEMORY {
            return Err(format!("memory has at most {MAX_MEMORY} bytes"));
        }
        Ok(())
    }

    fn memory_file(&mut self, name: &str) -> Result<(), String> {
        self.memory_may_grow("memory-file")?;
        let room = MAX_MEMORY - self.memory.len();
        self.memory
            .extend(files::contents(self.folder, name, room)?);
        Ok(())
    }

    /// What a word finds in memory must not depend on a later line.
    fn memory_may_grow(&mut self, statement: &str) -> Result<(), String> {
        self.settled()?;
        match self.words {
            0 => Ok(()),
            _ => Err(format!("'{statement}' comes before the first word")),
        }
    }

    fn words(&mut self, values: &[&str]) -> Result<(), String> {
        self.settled()?;
        if values.is_empty() {
            return Err("'word' takes one or more words of eight digits".to_string());
        }
        for value in values {
            self.word(word(value)?, None)?;
        }
        Ok(())
    }

    fn words_file(&mut self, name: &str) -> Result<(), String> {
        self.settled()?;
        let room = (MAX_WORDS - self.words) * WORD_BYTES;
        let bytes = files::contents(self.folder, name, room)?;
        for (number, word) in files::words(&bytes, name)?.into_iter().enumerate() {
            self.word(word, Some(number * WORD_BYTES))?;
        }
        Ok(())
    }

    fn word(&mut self, word: u32, file_byte: Option<usize>) -> Result<(), String> {
        if self.words == MAX_WORDS {
            return Err(format!("a script has at most {MAX_WORDS} words"));
        }
        self.words += 1;
        self.step(Action::Word(Word {
            word,
            file_byte,
            answer_expected: false,
        }));
        Ok(())
    }

    fn expect(&mut self, values: &[&str]) -> Result<(), String> {
        let settings = self.settled()?;
        let expectation = Expectation::read(values, settings, self.memory.len())?;
        if self.words == 0 {
            return Err("'expect' comes after a word: it is about what words did".to_string());
        }
        if let Expectation::Answer(_) = expectation {
            let mut before = self.steps.iter_mut().rev();
            let word = before.find_map(|step| match &mut step.action {
                Action::Word(word) => Some(word),
                _ => None,
            });
            word.expect("there is a word before").answer_expected = true;
        }
        self.step(Action::Expect(expectation));
        Ok(())
    }

    fn step(&mut self, action: Action) {
        let line = self.line;
        self.steps.push(Step { line, action });
    }

    fn finish(mut self) -> Result<Script, String> {
        let settings = self.settled()?;
        if self.words == 0 {
            return Err("the script ends without a word to execute".to_string());
        }
        Ok(Script {
            settings,
            memory: self.memory,
            steps: self.steps,
        })
    }
}

/// The name of a file: all that follows the statement's name. Blanks may be in it, but no #.
fn path(content: &str) -> Result<&str, String> {
    let content = content.trim_matches(|c: char| c.is_ascii_whitespace());
    match content.split_once(|c: char| c.is_ascii_whitespace()) {
        Some((_, name)) => Ok(name.trim_start_matches(|c: char| c.is_ascii_whitespace())),
        None => Err(format!("'{content}' takes the name of a file")),
    }
}

#[cfg(test)]
mod tests;
