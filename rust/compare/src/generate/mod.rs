//! Random cases, each aimed at one answer of document 01, section 6.
//!
//! A case is first built so that nothing is wrong with it. Then the causes
//! of refusal that were drawn for it are put in.

mod addresses;
pub mod causes;
pub mod lengths;
pub mod memory;
pub mod predicates;
pub mod registers;
pub mod settings;
mod whole_bytes;
pub mod words;

use crate::case::Case;
use crate::names::{is_access, Named};
use crate::rows::Drawn;
use causes::Causes;
use second::flat::Flat;
use second::inputs::random::Random;
use sme_move::Refusal;

/// Fills `case` anew, with a word of one of the rows that are drawn from or,
/// where it is to be undecodable, one that may fit no row.
pub fn generate(random: &mut Random, case: &mut Case, drawn: Drawn) {
    let causes = Causes::draw(random, drawn);
    let row = words::row(random, &causes, drawn);
    let bits = words::fields(random, row, &causes);
    let operation = Flat::from_bytes(row.numbers(&bits));
    case.word = row.word(&bits);
    settings::set(random, case, row.level);
    fill_registers(random, case);
    let length = memory::length(random, case.settings.vector_bytes as usize, &operation);
    fill_memory(random, case, length);
    predicates::set(random, case, &operation);
    registers::set_index(random, case, &operation);
    if is_access(operation.kind()) {
        addresses::set(random, case, &operation, &causes);
    }
    spoil(random, case, row.level, &causes);
}

/// X, Z, P and ZA of the right lengths with random bytes, also beyond the
/// vector length.
pub fn fill_registers(random: &mut Random, case: &mut Case) {
    let largest = case.settings.largest_vector_bytes as usize;
    case.x.clear();
    case.x.extend((0..32).map(|_| registers::value(random)));
    fill_bytes(random, &mut case.z, 32 * largest);
    fill_bytes(random, &mut case.p, 16 * (largest / 8));
    fill_bytes(random, &mut case.za, largest * largest);
}

/// Memory of this length with random bytes, and where it is: before addresses
/// are aimed at it.
pub fn fill_memory(random: &mut Random, case: &mut Case, length: usize) {
    fill_bytes(random, &mut case.memory, length);
    case.settings.memory_address = memory::address(random, length);
}

fn fill_bytes(random: &mut Random, bytes: &mut Vec<u8>, length: usize) {
    bytes.resize(length, 0);
    random.fill(bytes);
}

/// Puts in the causes 1 to 5; the two that only loads and stores have are in
/// their addresses already. Lengths are spoiled before the vector length, so
/// that they are also wrong by one from what a refused vector length would
/// fix.
fn spoil(random: &mut Random, case: &mut Case, level: u8, causes: &Causes) {
    if causes.has(Refusal::ZaOff) {
        case.settings.za_on = false;
    }
    if causes.has(Refusal::StreamingOff) {
        case.settings.streaming = false;
    }
    if causes.has(Refusal::Undecodable) {
        words::spoil(random, case, level);
    }
    if causes.has(Refusal::BadLengths) {
        lengths::spoil(random, case);
    }
    if causes.has(Refusal::BadSettings) {
        settings::spoil(random, case);
    }
}
