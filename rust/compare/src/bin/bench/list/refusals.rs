//! Calls that are refused, for each answer that refuses execution (document
//! 01, section 6).

use super::sliced::{
    based_on_stack, Form, Sliced, ELEMENT_BYTES, LOAD, STORE, TO_TILE, ZEROING_FROM_TILE,
};
use crate::active::Active;
use crate::machine::Machine;
use crate::task::Task;
use compare::names::FAULT;
use sme_move::{Direction, Refusal};

/// What is wrong with a machine: the answer, what a line says of it, and how
/// the machine comes to be so.
type Spoiled = (Refusal, &'static str, fn(&mut Machine));

const BEFORE_DECODING: [Spoiled; 5] = [
    (Refusal::BadSettings, "level 4", |machine| {
        machine.settings.level = 4
    }),
    (Refusal::BadSettings, "vector length one more", |machine| {
        machine.settings.vector_bytes += 1
    }),
    (Refusal::BadLengths, "X one number short", |machine| {
        machine.x.narrow(0..31)
    }),
    (Refusal::BadLengths, "ZA one byte short", |machine| {
        let short = machine.za.len() - 1;
        machine.za.narrow(0..short);
    }),
    (Refusal::BadLengths, "memory beyond 2^64", |machine| {
        machine.settings.memory_address = u64::MAX
    }),
];

const AFTER_DECODING: [Spoiled; 2] = [
    (Refusal::StreamingOff, "streaming off", |machine| {
        machine.settings.streaming = false
    }),
    (Refusal::ZaOff, "ZA off", |machine| {
        machine.settings.za_on = false
    }),
];

/// Words that decode at no level: some near an encoding, some far from all.
const UNDECODABLE: [u32; 5] = [0, 0xC000_0010, 0xC001_0000, 0xC006_0001, 0xFFFF_FFFF];

/// The refusals, by answer.
pub fn tasks(vector_bytes: usize) -> Vec<Task> {
    let row = |sliced: Sliced, element_bytes, active| {
        sliced.task(Form {
            vector_bytes,
            element_bytes,
            direction: Direction::Horizontal,
            active,
        })
    };
    let good = row(TO_TILE, 1, Active::All);
    let spoiled = |(refusal, why, prepare): Spoiled| good.refused(refusal, why, prepare);
    let mut tasks = Vec::from(BEFORE_DECODING.map(spoiled));
    tasks.extend(UNDECODABLE.map(|word| undecodable(&good, word)));
    tasks.push(level_too_low(&row(ZEROING_FROM_TILE, 1, Active::All)));
    tasks.extend(AFTER_DECODING.map(spoiled));
    let accesses = [LOAD, STORE];
    let sized = |sliced| ELEMENT_BYTES.map(|bytes| row(sliced, bytes, Active::Last));
    tasks.extend(accesses.into_iter().flat_map(sized).map(misaligned));
    let sized = |sliced| ELEMENT_BYTES.map(|bytes| row(sliced, bytes, Active::All));
    tasks.extend(accesses.into_iter().flat_map(sized).flat_map(outside));
    tasks
}

/// A word that does not decode: there is nothing to copy beside it.
fn undecodable(good: &Task, word: u32) -> Task {
    Task {
        word,
        copied: 0,
        ..good.refused(Refusal::Undecodable, &format!("word {word:08X}"), |_| ())
    }
}

/// A word that decodes at level 3 alone.
fn level_too_low(good: &Task) -> Task {
    let why = format!("word {:08X} at level 2", good.word);
    Task {
        copied: 0,
        ..good.refused(Refusal::Undecodable, &why, |machine| {
            machine.settings.level = 2
        })
    }
}

/// The stack pointer is the base register, and no multiple of 16. Only the
/// last element is active, so that all are looked at.
fn misaligned(access: Task) -> Task {
    let why = format!("{}, last, stack misaligned", access.name);
    based_on_stack(&access).refused(Refusal::StackMisaligned, &why, Machine::misalign_stack)
}

/// The first byte is not in memory, or those from the middle on are not.
fn outside(access: Task) -> [Task; 2] {
    let cases: [Spoiled; 2] = [
        (FAULT, "first byte", Machine::begin_memory_inside),
        (FAULT, "byte in the middle", Machine::end_memory_inside),
    ];
    cases.map(|(refusal, byte, prepare)| {
        let why = format!("{}, {byte} outside", access.name);
        access.refused(refusal, &why, prepare)
    })
}
