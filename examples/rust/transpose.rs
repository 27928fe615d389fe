//! Transposes a matrix in memory: each of its rows is loaded to a row of a tile, and each column of the tile is stored.
//!
//!     bash archive.sh
//!     cargo run --manifest-path rust/Cargo.toml -p sme_move --example transpose

use sme_move::{encode, Direction, ElementSize, Machine, Operation, Refusal, Settings};
use std::process::ExitCode;

/// The vector length in bytes.
const B: usize = 64;
const SIZE: ElementSize = ElementSize::Bits32;
/// A tile of 4-byte elements has so many rows and columns, and so has the matrix.
const N: usize = B / 4;

/// Where the simulated machine has the matrix, and where the transpose is to be.
const MATRIX: u64 = 0x10000;
const TRANSPOSE: u64 = MATRIX + (N * B) as u64;

/// The registers that the two words go by.
const MATRIX_BASE: u8 = 0;
const TRANSPOSE_BASE: u8 = 1;
/// The offset from the base, in elements.
const ELEMENTS: u8 = 2;
/// The row or column of the tile.
const SLICE: u8 = 12;

/// Loads a row of the matrix to a row of tile 0.
const LOAD: Operation = Operation::Ld1 {
    size: SIZE,
    direction: Direction::Horizontal,
    tile: 0,
    offset: 0,
    index: SLICE,
    predicate: 0,
    base: MATRIX_BASE,
    offset_register: ELEMENTS,
};

/// Stores a column of tile 0 to a row of the transpose.
const STORE: Operation = Operation::St1 {
    size: SIZE,
    direction: Direction::Vertical,
    tile: 0,
    offset: 0,
    index: SLICE,
    predicate: 0,
    base: TRANSPOSE_BASE,
    offset_register: ELEMENTS,
};

/// Element (row, column) of the matrix that lies in memory from its first byte on, lowest byte first.
fn element(memory: &[u8], row: usize, column: usize) -> u32 {
    let first = 4 * (N * row + column);
    let bytes = memory[first..first + 4].try_into();
    u32::from_le_bytes(bytes.expect("these are four bytes"))
}

fn is_transpose(one: &[u8], other: &[u8]) -> bool {
    let mut places = (0..N).flat_map(|row| (0..N).map(move |column| (row, column)));
    places.all(|(row, column)| element(one, row, column) == element(other, column, row))
}

fn print(title: &str, memory: &[u8]) {
    println!("{title}");
    for row in 0..N {
        let line = (0..N).map(|column| format!("{:5}", element(memory, row, column)));
        println!("{}", line.collect::<String>());
    }
}

/// The machine with the matrix in memory, and zeros behind it for the transpose.
fn machine() -> Result<Machine, Refusal> {
    let settings = Settings::new(B as u64, 1)?
        .with_streaming(true)
        .with_za(true)
        .with_memory_address(MATRIX);
    let elements =
        (0..N as u32).flat_map(|row| (0..N as u32).map(move |column| 100 * row + column));
    let mut memory: Vec<u8> = elements.flat_map(u32::to_le_bytes).collect();
    memory.resize(2 * memory.len(), 0);
    let mut machine = Machine::new(settings, memory)?;
    machine.state.predicate_mut(0).fill(0xFF); // every element is active
    machine.state.x[usize::from(MATRIX_BASE)] = MATRIX;
    machine.state.x[usize::from(TRANSPOSE_BASE)] = TRANSPOSE;
    Ok(machine)
}

fn main() -> Result<ExitCode, Refusal> {
    let mut machine = machine()?;
    print("before", &machine.memory);
    // All rows in, and then all columns out.
    for word in [encode(LOAD)?, encode(STORE)?] {
        for slice in 0..N {
            machine.state.x[usize::from(SLICE)] = slice as u64;
            machine.state.x[usize::from(ELEMENTS)] = (slice * N) as u64;
            machine.execute(word)?;
        }
    }
    let (matrix, transpose) = machine.memory.split_at(N * B);
    print("after", transpose);
    Ok(if is_transpose(matrix, transpose) {
        ExitCode::SUCCESS
    } else {
        ExitCode::FAILURE
    })
}
