//! Random states for the machine: every word that it should know, with
//! memory where the machine has it.

use super::machine::{Abilities, LOW_MEMORY, MEMORY, MEMORY_BYTES};
use compare::case::Case;
use compare::generate::{predicates, registers};
use compare::names::{is_access, Named};
use compare::rows::TABLE;
use second::execute::{Settings, VECTOR_LENGTHS};
use second::flat::{place, Flat};
use second::inputs::random::Random;
use second::inputs::rows::Row;

/// A page of the machine.
pub const PAGE: u64 = 4096;
/// More than the bytes of any slice, and some beside.
const REACH: usize = 280;

/// Fills `case` anew.
pub fn generate(random: &mut Random, case: &mut Case, abilities: Abilities) {
    let row = row(random, abilities.level);
    let bits = fields(random, row);
    let operation = Flat::from_bytes(row.numbers(&bits));
    case.word = row.word(&bits);
    case.settings = settings(random, abilities);
    fill(random, case);
    predicates::set(random, case, &operation);
    registers::set_index(random, case, &operation);
    if is_access(operation.kind()) {
        set_address(random, case, &operation);
    }
}

/// Any row of the machine's level, and now and then one above it.
fn row(random: &mut Random, level: u64) -> &'static Row {
    let above = random.chance(1, 50);
    let wanted = |row: &&Row| (u64::from(row.level) > level) == above;
    let rows: Vec<&Row> = TABLE.iter().filter(wanted).collect();
    if rows.is_empty() {
        return &TABLE[random.below(TABLE.len())];
    }
    rows[random.below(rows.len())]
}

/// Random fields, with register 31 more often than by chance: it means
/// something else as a base, and something else again as an offset.
fn fields(random: &mut Random, row: &Row) -> Vec<u32> {
    let mut bits = row.random(random);
    for (own, bits) in row.fields.iter().zip(&mut bits) {
        let special = [place::BASE, place::OFFSET_REGISTER].contains(&own.place);
        if special && random.chance(1, 10) {
            *bits = 31;
        }
    }
    bits
}

/// The machine has no bytes beyond the vector length, so buffers are for it.
fn settings(random: &mut Random, abilities: Abilities) -> Settings {
    let low = abilities.low_memory && random.chance(1, 4);
    let vector_bytes = random.pick(&VECTOR_LENGTHS);
    Settings {
        vector_bytes,
        level: abilities.level,
        streaming: !random.chance(1, 60),
        za_on: !random.chance(1, 60),
        memory_address: if low { LOW_MEMORY } else { MEMORY },
        stack_check: random.chance(1, 2),
        largest_vector_bytes: vector_bytes,
    }
}

/// Buffers with random bytes.
fn fill(random: &mut Random, case: &mut Case) {
    let vector_bytes = case.settings.vector_bytes as usize;
    case.x.clear();
    case.x.extend((0..32).map(|_| registers::value(random)));
    let lengths = [
        (&mut case.z, 32 * vector_bytes),
        (&mut case.p, 2 * vector_bytes),
        (&mut case.za, vector_bytes * vector_bytes),
        (&mut case.memory, MEMORY_BYTES),
    ];
    for (bytes, length) in lengths {
        bytes.resize(length, 0);
        random.fill(bytes);
    }
}

/// Sets the registers of a load or store so that element 0 is where it is
/// drawn to be.
fn set_address(random: &mut Random, case: &mut Case, operation: &Flat) {
    let m = u64::from(operation.element_bytes);
    let (base, offset) = (
        usize::from(operation.base),
        usize::from(operation.offset_register),
    );
    let mut start = start(random, case.settings.memory_address);
    if base == 31 && random.chance(3, 4) {
        // A multiple of 16 less multiples of 16 is one.
        start &= !15;
        case.x[offset] &= !15;
    }
    case.x[base] = match offset {
        31 => start,
        _ if offset == base => same_register(random, start, m),
        _ => start.wrapping_sub(case.x[offset].wrapping_mul(m)),
    };
}

/// The value v for which v + v * m is the address: 1 + m has an inverse
/// modulo 2^64 but for m = 1, where the lowest bit is lost.
fn same_register(random: &mut Random, start: u64, m: u64) -> u64 {
    if m == 1 {
        return start >> 1 | random.bits() << 63;
    }
    let factor = 1 + m;
    // Each turn doubles the number of bits that are right, from 3 on.
    let inverse = (0..5).fold(factor, |found, _| {
        found.wrapping_mul(2u64.wrapping_sub(factor.wrapping_mul(found)))
    });
    start.wrapping_mul(inverse)
}

/// The address of element 0: mostly so that all of a slice is in memory, often
/// so that it crosses from one page to the next, and sometimes at an end of
/// memory or anywhere.
fn start(random: &mut Random, memory: u64) -> u64 {
    let end = memory + MEMORY_BYTES as u64;
    let below = |random: &mut Random, top: u64| top.wrapping_sub(random.below(REACH) as u64);
    let drawn = match random.below(64) {
        0..=31 => memory + random.below(MEMORY_BYTES - REACH) as u64,
        32..=55 => below(random, memory + PAGE),
        56..=58 => below(random, memory),
        59..=61 => below(random, end),
        62 => random.bits(),
        _ => {
            let tag = random.bits() << 56;
            tag ^ below(random, memory + PAGE)
        }
    };
    // Elements that are aligned are as frequent as those that are not.
    if random.chance(1, 2) {
        return drawn & !15;
    }
    drawn
}
