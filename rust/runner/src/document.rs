//! A run as one JSON document, whose shape docs/RUNNER.md tells.

use crate::changes::{self, Change, Spot};
use crate::json::Json;
use crate::machine::{Execution, Machine};
use crate::run::{Checked, Executed, NotAllowed, Observer, Tally};
use crate::script::{Answer, Expectation, Place};
use crate::verdict::{self, Difference};
use crate::{version, wording};
use sme_move::{Fields, Refusal};
use std::io::{self, Write};

/// The number of the document's shape, which grows when a reader of an older one would go wrong.
const FORMAT: usize = 1;

/// Prints the document while the run goes on, with each word and each expectation on a line.
pub struct Document<'a, W> {
    out: W,
    name: &'a str,
    words: usize,
    /// Expectations come after all words.
    expectations: Vec<Json>,
}

impl<'a, W: Write> Document<'a, W> {
    pub fn new(out: W, name: &'a str) -> Document<'a, W> {
        Document {
            out,
            name,
            words: 0,
            expectations: Vec::new(),
        }
    }

    fn member(&mut self, name: &str, value: Json, ends: bool) -> io::Result<()> {
        let end = if ends { "" } else { "," };
        writeln!(self.out, "\"{name}\": {value}{end}")
    }
}

impl<W: Write> Observer for Document<'_, W> {
    fn shows_words(&self) -> bool {
        true
    }

    fn start(&mut self, machine: &Machine) -> io::Result<()> {
        writeln!(self.out, "{{")?;
        let versions = version::parts().map(|(name, version)| (name, Json::text(version)));
        let versions = Json::Object(versions.into());
        self.member("format", Json::Number(FORMAT), false)?;
        self.member("versions", versions, false)?;
        self.member("script", Json::text(self.name), false)?;
        self.member("settings", settings(machine), false)?;
        write!(self.out, "\"words\": [")
    }

    fn word(&mut self, executed: &Executed, machine: &Machine) -> io::Result<()> {
        let separator = if self.words == 0 { "" } else { "," };
        self.words = executed.number;
        write!(self.out, "{separator}\n{}", word(executed, machine))
    }

    /// It stands with its word.
    fn not_allowed(&mut self, _: &NotAllowed) -> io::Result<()> {
        Ok(())
    }

    fn expectation(&mut self, checked: &Checked) -> io::Result<()> {
        self.expectations.push(expectation(checked, self.words));
        Ok(())
    }

    fn end(&mut self, tally: &Tally, machine: &Machine) -> io::Result<()> {
        writeln!(self.out, "\n],\n\"expectations\": [")?;
        let count = self.expectations.len();
        for (i, expectation) in self.expectations.iter().enumerate() {
            let separator = if i + 1 == count { "" } else { "," };
            writeln!(self.out, "{expectation}{separator}")?;
        }
        writeln!(self.out, "],")?;
        self.member("end", end(tally, machine), false)?;
        self.member("summary", summary(tally), true)?;
        writeln!(self.out, "}}")
    }
}

fn settings(machine: &Machine) -> Json {
    let settings = machine.settings;
    Json::Object(vec![
        ("vector_bytes", Json::Number(machine.vector_bytes())),
        ("level", Json::Number(settings.level as usize)),
        ("streaming", Json::Bool(settings.streaming)),
        ("array", Json::Bool(settings.za)),
        ("memory_address", Json::address(settings.memory_address)),
        ("memory_bytes", Json::Number(machine.memory.len())),
        ("stack_check", Json::Bool(settings.stack_check)),
        (
            "largest_vector_bytes",
            Json::Number(settings.largest_vector_bytes as usize),
        ),
    ])
}

fn word(executed: &Executed, machine: &Machine) -> Json {
    let execution = executed.execution;
    let operation = execution.operation.ok();
    let changes = changes::of(execution, machine);
    let [address, element] = carried(execution.answer);
    Json::Object(vec![
        ("number", Json::Number(executed.number)),
        ("line", Json::Number(executed.line)),
        ("file_byte", Json::of(executed.file_byte, Json::Number)),
        ("word", Json::text(format!("{:08X}", execution.word))),
        (
            "meaning",
            Json::of(operation, |operation| {
                Json::Text(wording::meaning(operation))
            }),
        ),
        (
            "numbers",
            Json::of(operation, |operation| numbers(operation.into())),
        ),
        ("answer", Json::Number(number(execution.answer))),
        ("answer_text", Json::text(answer_text(execution))),
        ("address", address),
        ("element", element),
        ("changed", Json::List(changes.iter().map(change).collect())),
        (
            "failure",
            Json::of(executed.failure, |failure| Json::text(&failure.headline)),
        ),
    ])
}

/// The eleven numbers by their names.
fn numbers(fields: Fields) -> Json {
    let values: [u8; 11] = fields.into();
    let names = [
        "kind",
        "element_bytes",
        "direction",
        "tile",
        "offset",
        "index_register",
        "predicate",
        "first_vector_register",
        "base_register",
        "offset_register",
        "vector_registers",
    ];
    let named = names.into_iter().zip(values);
    Json::Object(
        named
            .map(|(name, value)| (name, Json::Number(value.into())))
            .collect(),
    )
}

fn number(answer: Result<(), Refusal>) -> usize {
    answer.map_or_else(|refusal| refusal.number() as usize, |()| 0)
}

/// What the answer means, without its number.
fn answer_text(execution: &Execution) -> String {
    let text = wording::answer(execution.answer);
    match text.split_once(": ") {
        Some((_, meaning)) => meaning.to_string(),
        None => text,
    }
}

/// The address and the element that answer 7 carries.
fn carried(answer: Result<(), Refusal>) -> [Json; 2] {
    match answer {
        Err(Refusal::OutsideMemory { address, element }) => {
            [Json::address(address), Json::Number(element as usize)]
        }
        _ => [Json::Null, Json::Null],
    }
}

fn change(change: &Change) -> Json {
    let numbered = |place, number, byte| {
        vec![
            ("place", Json::text(place)),
            ("number", Json::Number(number)),
            ("byte", Json::Number(byte)),
        ]
    };
    let mut members = match change.spot {
        Spot::Array { number, byte } => numbered("array", number, byte),
        Spot::Vector { number, byte } => numbered("vector", number, byte),
        Spot::Memory { address } => vec![
            ("place", Json::text("memory")),
            ("address", Json::address(address)),
        ],
    };
    members.push(("before", Json::bytes(change.before)));
    members.push(("after", Json::bytes(change.after)));
    Json::Object(members)
}

fn expectation(checked: &Checked, word: usize) -> Json {
    let difference = checked.difference.as_ref();
    Json::Object(vec![
        ("line", Json::Number(checked.line)),
        ("word", Json::Number(word)),
        ("about", Json::text(verdict::about(checked.expectation))),
        ("met", Json::Bool(difference.is_none())),
        (
            "difference",
            Json::of(difference, |found| differing(checked.expectation, found)),
        ),
    ])
}

fn differing(expectation: &Expectation, difference: &Difference) -> Json {
    match (expectation, difference) {
        (
            Expectation::Bytes { bytes, .. },
            Difference::Bytes {
                first,
                count,
                found,
            },
        ) => Json::Object(vec![
            ("first_byte", Json::Number(*first)),
            ("bytes", Json::Number(*count)),
            ("expected", Json::bytes(bytes)),
            ("found", Json::bytes(found)),
        ]),
        (Expectation::Answer(expected), Difference::Answer(found)) => {
            differing_answers(*expected, *found)
        }
        // A difference is always of its expectation's sort.
        _ => Json::Null,
    }
}

fn differing_answers(expected: Answer, found: Result<(), Refusal>) -> Json {
    let [expected_address, expected_element] = match expected {
        Answer::Exactly(answer) => carried(answer),
        Answer::OutsideMemory { address } => [Json::of(address, Json::address), Json::Null],
    };
    let [found_address, found_element] = carried(found);
    Json::Object(vec![
        ("expected", Json::Number(expected.number() as usize)),
        ("expected_address", expected_address),
        ("expected_element", expected_element),
        ("found", Json::Number(number(found))),
        ("found_address", found_address),
        ("found_element", found_element),
    ])
}

/// What words changed, as it is at the end.
fn end(tally: &Tally, machine: &Machine) -> Json {
    let register = |&number: &usize| {
        let bytes = machine.member(Place::Vector, number);
        Json::Object(vec![
            ("number", Json::Number(number)),
            ("bytes", Json::bytes(bytes)),
        ])
    };
    let row = |&row: &usize| {
        Json::Object(vec![
            ("address", Json::Text(machine.row_address(row))),
            ("bytes", Json::bytes(machine.memory_row(row))),
        ])
    };
    Json::Object(vec![
        (
            "vectors",
            Json::List(tally.registers.iter().map(register).collect()),
        ),
        (
            "memory",
            Json::List(tally.memory_rows.iter().map(row).collect()),
        ),
    ])
}

fn summary(tally: &Tally) -> Json {
    Json::Object(vec![
        ("words", Json::Number(tally.words)),
        ("done", Json::Number(tally.done)),
        ("refused", Json::Number(tally.words - tally.done)),
        ("not_allowed", Json::Number(tally.not_allowed)),
        ("expectations", Json::Number(tally.expectations)),
        ("not_met", Json::Number(tally.unmet)),
        ("failed", Json::Bool(tally.first_failure.is_some())),
    ])
}
