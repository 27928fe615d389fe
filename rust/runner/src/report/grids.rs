//! The grids that show what a word did.

use crate::grid::{Grid, Row};
use crate::machine::{member, Execution, Machine, MEMORY_ROW};
use crate::operation::Parts;
use crate::script::Place;
use crate::taken::Taken;
use crate::tile::Tile;
use sme_move::Direction;

/// How many bytes stand together where there are no elements.
const GROUP: usize = 4;

/// The array's part that the word takes, and the vector registers and the memory that changed.
pub fn of<'a>(
    parts: Parts,
    execution: &'a Execution,
    machine: &'a Machine,
) -> impl Iterator<Item = Grid<'a>> {
    let vector_bytes = machine.vector_bytes();
    let array = match Taken::by(parts, vector_bytes, &machine.state.x) {
        Taken::Slice {
            tile,
            direction,
            slice,
        } => of_tile(execution, machine, tile, direction, slice),
        Taken::Vectors(vectors) => of_vectors(execution, machine, &vectors),
    };
    let registers = of_registers(parts, execution, machine);
    let memory = of_memory(execution, machine);
    let changes = [registers, memory].into_iter();
    [array]
        .into_iter()
        .chain(changes.filter(|grid| !grid.rows.is_empty()))
}

/// A row that is a vector register or a vector of the array, before and after.
fn row<'a>(
    execution: &'a Execution,
    machine: &'a Machine,
    (place, number): (Place, usize),
    labels: Vec<String>,
    taken: bool,
) -> Row<'a> {
    let before = &execution.state_before;
    Row {
        labels,
        taken,
        before: member(before, place, number, machine.settings),
        after: machine.member(place, number),
    }
}

fn of_tile<'a>(
    execution: &'a Execution,
    machine: &'a Machine,
    tile: Tile,
    direction: Direction,
    slice: usize,
) -> Grid<'a> {
    let vertical = direction == Direction::Vertical;
    let tile_row = |number: usize| {
        let vector = tile.vector(number);
        let labels = vec![number.to_string(), vector.to_string()];
        let taken = !vertical && number == slice;
        row(execution, machine, (Place::Array, vector), labels, taken)
    };
    Grid {
        title: tile.name(),
        headings: vec!["slice", "vector"],
        column: ("column", 1),
        group: tile.element_bytes,
        rows: (0..tile.slices()).map(tile_row).collect(),
        taken_group: vertical.then_some(slice),
    }
}

fn of_vectors<'a>(execution: &'a Execution, machine: &'a Machine, vectors: &[usize]) -> Grid<'a> {
    let rows = vectors.iter().map(|&number| {
        let place = (Place::Array, number);
        row(execution, machine, place, vec![number.to_string()], true)
    });
    Grid {
        title: "vectors of the array".to_string(),
        headings: vec!["vector"],
        column: ("byte", GROUP),
        group: GROUP,
        rows: rows.collect(),
        taken_group: None,
    }
}

fn of_registers<'a>(parts: Parts, execution: &'a Execution, machine: &'a Machine) -> Grid<'a> {
    let registers = 0..Place::Vector.members(machine.vector_bytes());
    let rows = registers.map(|number| {
        let place = (Place::Vector, number);
        row(execution, machine, place, vec![number.to_string()], false)
    });
    let (column, group) = match parts.reach.element_bytes() {
        None => (("byte", GROUP), GROUP),
        Some(element_bytes) => (("element", 1), element_bytes),
    };
    Grid {
        title: "vector registers that changed".to_string(),
        headings: vec!["register"],
        column,
        group,
        rows: rows.filter(|row| row.before != row.after).collect(),
        taken_group: None,
    }
}

fn of_memory<'a>(execution: &'a Execution, machine: &'a Machine) -> Grid<'a> {
    let first = execution.memory_start / MEMORY_ROW;
    let before = execution.memory_before.chunks(MEMORY_ROW);
    let after = execution.memory_after(machine).chunks(MEMORY_ROW);
    let row = |(number, (before, after)): (usize, (&'a [u8], &'a [u8]))| Row {
        labels: vec![machine.row_address(first + number)],
        taken: false,
        before,
        after,
    };
    let rows = before.zip(after).enumerate();
    Grid {
        title: "memory that changed".to_string(),
        headings: vec!["address"],
        column: ("byte", GROUP),
        group: GROUP,
        rows: rows
            .map(row)
            .filter(|row| row.before != row.after)
            .collect(),
        taken_group: None,
    }
}

/// Vector registers at the end of a script.
pub fn of_final_registers<'a>(machine: &'a Machine, numbers: &[usize]) -> Grid<'a> {
    let row = |&number: &usize| (number.to_string(), machine.member(Place::Vector, number));
    let rows = numbers.iter().map(row);
    at_the_end(
        "vector registers that words changed, at the end",
        "register",
        rows,
    )
}

/// Rows of memory at the end of a script.
pub fn of_final_memory<'a>(machine: &'a Machine, rows: &[usize]) -> Grid<'a> {
    let row = |&number: &usize| (machine.row_address(number), machine.memory_row(number));
    let rows = rows.iter().map(row);
    at_the_end("memory that words changed, at the end", "address", rows)
}

/// Contents that are shown once, and not before and after a word.
fn at_the_end<'a>(
    title: &str,
    heading: &'static str,
    rows: impl Iterator<Item = (String, &'a [u8])>,
) -> Grid<'a> {
    let row = |(label, bytes)| Row {
        labels: vec![label],
        taken: false,
        before: bytes,
        after: bytes,
    };
    Grid {
        title: title.to_string(),
        headings: vec![heading],
        column: ("byte", GROUP),
        group: GROUP,
        rows: rows.map(row).collect(),
        taken_group: None,
    }
}
