//! What is printed of a run: everything, or in brief.

mod brief;
mod grids;

use crate::access;
use crate::grid::Grid;
use crate::machine::{Execution, Machine};
use crate::operation::{Access, Parts, Reach};
use crate::paint::{Style, View};
use crate::run::{Checked, Executed, NotAllowed, Observer, Tally};
use crate::script::Place;
use crate::taken::{active_elements, index_value, modulus, Taken};
use crate::wording::{self, counted, direction_name, list, ranges};
use sme_move::Operation;
use std::io::{self, Write};

pub use brief::Brief;

/// Prints everything about each word.
pub struct Report<'a, W> {
    pub out: W,
    pub view: &'a View,
    /// The script's name, with which failures begin.
    pub name: &'a str,
}

impl<W: Write> Observer for Report<'_, W> {
    fn shows_words(&self) -> bool {
        true
    }

    fn start(&mut self, machine: &Machine) -> io::Result<()> {
        writeln!(self.out, "{}", settings(machine))?;
        writeln!(self.out, "{BYTE_ORDER}\n")
    }

    fn word(&mut self, executed: &Executed, machine: &Machine) -> io::Result<()> {
        word(&mut self.out, self.view, executed, machine)
    }

    fn not_allowed(&mut self, failure: &NotAllowed) -> io::Result<()> {
        brief::refusal(&mut self.out, self.name, failure)?;
        writeln!(self.out)
    }

    fn expectation(&mut self, checked: &Checked) -> io::Result<()> {
        match checked.difference {
            None => writeln!(self.out, "line {}: {}", checked.line, checked.headline())?,
            Some(_) => brief::difference(&mut self.out, self.name, checked)?,
        }
        writeln!(self.out)
    }

    fn end(&mut self, tally: &Tally, machine: &Machine) -> io::Result<()> {
        let registers: Vec<usize> = tally.registers.iter().copied().collect();
        let rows: Vec<usize> = tally.memory_rows.iter().copied().collect();
        let registers = grids::of_final_registers(machine, &registers);
        let memory = grids::of_final_memory(machine, &rows);
        for grid in [registers, memory] {
            if !grid.rows.is_empty() {
                draw(&mut self.out, self.view, &grid)?;
                writeln!(self.out)?;
            }
        }
        writeln!(self.out, "{}", tally.summary())
    }
}

/// How elements are to be read, of which only bytes are shown.
const BYTE_ORDER: &str =
    "bytes are shown lowest first, so a 4-byte element 78563412 has the value 12345678";

fn settings(machine: &Machine) -> String {
    let on = |switch| if switch { "on" } else { "off" };
    let settings = machine.settings;
    let memory = match machine.memory.len() {
        0 => "no memory".to_string(),
        length => format!(
            "{} of memory from address {:016X}",
            counted(length, "byte"),
            settings.memory_address
        ),
    };
    format!(
        "vectors of {} bytes in buffers for {}, level {}, streaming {}, array {}, stack check {}, {memory}",
        settings.vector_bytes,
        settings.largest_vector_bytes,
        settings.level,
        on(settings.streaming),
        on(settings.za),
        on(settings.stack_check)
    )
}

/// Prints everything about a word that was just executed on the machine.
fn word(
    out: &mut impl Write,
    view: &View,
    executed: &Executed,
    machine: &Machine,
) -> io::Result<()> {
    let execution = executed.execution;
    let title = format!("word {}: {:08X}", executed.number, execution.word);
    let title = view.paint.text(Style::Heading, &title);
    let place = match executed.file_byte {
        None => format!("line {}", executed.line),
        Some(byte) => format!("line {}, byte {byte} of the file", executed.line),
    };
    writeln!(out, "{title} ({place})")?;
    match execution.operation {
        Ok(operation) => {
            decoded(out, operation)?;
            taking(out, Parts::of(operation), machine)?;
        }
        Err(_) => item(
            out,
            "meaning",
            &[wording::no_instruction(machine.settings.level)],
        )?,
    }
    answer(out, view, execution)?;
    if let (Ok(operation), Ok(())) = (execution.operation, execution.answer) {
        item(out, "changed", &[changed(execution, machine)])?;
        for grid in grids::of(Parts::of(operation), execution, machine) {
            writeln!(out)?;
            draw(out, view, &grid)?;
        }
    }
    writeln!(out)
}

fn draw(out: &mut impl Write, view: &View, grid: &Grid) -> io::Result<()> {
    for line in grid.lines(view) {
        writeln!(out, "{line}")?;
    }
    Ok(())
}

/// What a word is, and its eleven numbers.
pub fn decoded(out: &mut impl Write, operation: Operation) -> io::Result<()> {
    item(out, "meaning", &[wording::meaning(operation)])?;
    item(out, "fields", &wording::fields(operation.into()))
}

/// Lines under a name.
pub fn item(out: &mut impl Write, name: &str, lines: &[String]) -> io::Result<()> {
    for (i, line) in lines.iter().enumerate() {
        let name = if i == 0 { name } else { "" };
        writeln!(out, "  {name:<8} {line}")?;
    }
    Ok(())
}

fn taking(out: &mut impl Write, parts: Parts, machine: &Machine) -> io::Result<()> {
    let registers = &machine.state.x;
    let taken = Taken::by(parts, machine.vector_bytes(), registers);
    item(out, "takes", &[what_is_taken(&taken), why(parts, machine)])?;
    if let (Some(predicate), Taken::Slice { tile, .. }) = (parts.governing_predicate, taken) {
        let predicate = machine.member(Place::Predicate, usize::from(predicate));
        let active = active(&active_elements(tile, predicate), tile.slices());
        item(out, "active", &[active])?;
    }
    if let Some(access) = parts.access {
        item(out, "address", &[address(access, registers)])?;
    }
    Ok(())
}

/// Where a load or store begins in memory, and how far apart elements are of more than one byte.
fn address(access: Access, registers: &[u64]) -> String {
    let address = access::first_address(access, registers);
    let sum = access::sum(access);
    let first = format!("{address:016X} for element 0: {sum}");
    match access.size.bytes() {
        1 => first,
        bytes => format!("{first}, then every {bytes}"),
    }
}

fn what_is_taken(taken: &Taken) -> String {
    match taken {
        Taken::Slice {
            tile,
            direction,
            slice,
        } => {
            let (direction, last) = (direction_name(*direction), tile.slices() - 1);
            format!(
                "{direction} slice {slice} (of 0 to {last}) of {}",
                tile.name()
            )
        }
        Taken::Vectors(vectors) => {
            let vectors: Vec<String> = vectors.iter().map(usize::to_string).collect();
            format!("vectors {} of the array", list(&vectors))
        }
    }
}

/// How the slice number, or the first vector number, comes about.
fn why(parts: Parts, machine: &Machine) -> String {
    let (index, offset) = (parts.index, parts.offset);
    let value = index_value(parts, &machine.state.x);
    let modulus = modulus(parts.reach, machine.vector_bytes());
    let sum = format!("{value:08X} in the low 32 bits of register {index} + offset {offset}");
    match parts.reach {
        Reach::Group(_) => format!("({sum}) modulo {modulus}, then every {modulus}"),
        Reach::Slice { .. } => format!("({sum}) modulo {modulus}"),
    }
}

fn active(elements: &[usize], all: usize) -> String {
    let all = counted(all, "element");
    format!("{} of {all}: {}", elements.len(), ranges(elements))
}

fn answer(out: &mut impl Write, view: &View, execution: &Execution) -> io::Result<()> {
    let answer = wording::answer(execution.answer);
    match execution.answer {
        Ok(()) => item(out, "answer", &[answer]),
        Err(_) => {
            let answer = view.paint.text(Style::Refused, &answer);
            item(out, "answer", &[answer])?;
            item(
                out,
                "changed",
                &["nothing: the word was refused".to_string()],
            )
        }
    }
}

/// How many bytes changed, and where.
fn changed(execution: &Execution, machine: &Machine) -> String {
    let before = &execution.state_before;
    let parts: Vec<String> = [
        ("the array", count(&before.za, &machine.state.za)),
        ("vector registers", count(&before.z, &machine.state.z)),
        (
            "memory",
            count(&execution.memory_before, execution.memory_after(machine)),
        ),
    ]
    .into_iter()
    .filter(|&(_, bytes)| bytes > 0)
    .map(|(place, bytes)| format!("{} of {place}", counted(bytes, "byte")))
    .collect();
    match parts.as_slice() {
        [] => "nothing".to_string(),
        parts => list(parts),
    }
}

/// How many bytes differ; none in what was not kept.
fn count(before: &[u8], after: &[u8]) -> usize {
    before
        .iter()
        .zip(after)
        .filter(|(old, new)| old != new)
        .count()
}
