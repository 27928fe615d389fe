//! A difference, told in full.

use super::machine::{End, Reply};
use compare::case::{Case, Outcome};
use sme_move::{decode, Settings};
use std::fmt::Write;

/// How many bytes are shown before and after the first that differs.
const AROUND: usize = 16;

/// Everything about a case on which the machine and the unit differ.
pub fn difference(case: &Case, own: &Outcome, reply: &Reply) -> String {
    let mut lines = vec![
        format!("word {:08X}", case.word),
        operation(case.word),
        settings(case),
        format!(
            "unit: answer {}, address {:016X}, element {}",
            own.answer, own.address, own.element
        ),
        format!("peer: {}", end(&reply.end)),
    ];
    lines.extend(registers(case));
    if reply.x != case.x && !reply.x.is_empty() {
        lines.push(format!("X after the peer: {:016X?}", reply.x));
    }
    let vector = case.settings.vector_bytes as usize;
    let memories = [&case.memory[..], &own.memory, &reply.memory];
    lines.push(buffer("Z", vector, [&case.z, &own.z, &reply.z]));
    lines.push(buffer("P", vector / 8, [&case.p, &own.p, &reply.p]));
    lines.push(buffer("ZA", vector, [&case.za, &own.za, &reply.za]));
    lines.push(buffer("memory", 1, memories));
    lines.join("\n")
}

fn operation(word: u32) -> String {
    match decode(word, Settings::MAX_LEVEL) {
        Ok(operation) => format!("at the highest level: {operation:?}"),
        Err(refusal) => format!("at the highest level: {refusal}"),
    }
}

fn settings(case: &Case) -> String {
    let settings = &case.settings;
    format!(
        "vector length {}, level {}, streaming {}, ZA {}, {} bytes of memory from {:016X} on, stack check {}",
        settings.vector_bytes,
        settings.level,
        settings.streaming,
        settings.za_on,
        case.memory.len(),
        settings.memory_address,
        settings.stack_check
    )
}

/// All of X and P before the call.
fn registers(case: &Case) -> Vec<String> {
    let mut lines = Vec::new();
    for (row, values) in case.x.chunks(4).enumerate() {
        lines.push(format!("X{:<2} {values:016X?}", 4 * row));
    }
    let predicate = case.settings.vector_bytes as usize / 8;
    for (number, bytes) in case.p.chunks(predicate).enumerate() {
        lines.push(format!("P{number:<2}{}", hexadecimal(bytes)));
    }
    lines
}

fn end(end: &End) -> String {
    match end {
        End::Done => "done".to_string(),
        End::Signal { number, address } => format!("signal {number}, address {address:016X}"),
        End::Died { told } => format!("the emulator ended: {told}"),
    }
}

/// A buffer before the call and after it on both sides, around the first byte
/// that differs. `unit` is the length of one of its registers.
fn buffer(name: &str, unit: usize, states: [&[u8]; 3]) -> String {
    let [before, own, peer] = states;
    if peer.is_empty() {
        return format!("{name}: the peer gave none");
    }
    let places: Vec<usize> = (0..own.len()).filter(|&at| own[at] != peer[at]).collect();
    let Some(&first) = places.first() else {
        return format!("{name}: alike");
    };
    let mut told = format!("{name}: {} bytes differ, the first: {first}", places.len());
    let (byte, number) = (first % unit, first / unit);
    let shown = first.saturating_sub(AROUND)..(first + AROUND).min(own.len());
    // Writing to a string cannot fail.
    let _ = write!(
        told,
        ", byte {byte} of number {number}; from {}:",
        shown.start
    );
    for (who, bytes) in [("before", before), ("unit", own), ("peer", peer)] {
        let _ = write!(told, "\n  {who:<6}{}", hexadecimal(&bytes[shown.clone()]));
    }
    told
}

fn hexadecimal(bytes: &[u8]) -> String {
    bytes.iter().map(|byte| format!(" {byte:02X}")).collect()
}
