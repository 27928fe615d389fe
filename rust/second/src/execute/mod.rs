//! Execution of one word (document 01, sections 2, 3, 5 and 6, as requests 4,
//! 6 and 12 amend 2 and 6, with the pages of the instructions that requests 1
//! and 2 added).
//!
//! Written element by element in the manner of Arm's pseudocode: a slice is
//! read into a temporary vector and written back from one. Every check
//! comes before the first write, so a refusal changes no buffer.

mod access;
pub(crate) mod checks;
mod fault;
mod layout;
mod load;
mod memory;
mod mistake;
mod moves;
mod settings;
mod state;
mod store;
mod vector;

pub use mistake::Mistake;
pub use settings::{Settings, VECTOR_LENGTHS};

use crate::decode::decode;
use crate::flat;
use crate::refusal::Refusal;
use state::State;

/// The buffers that the host lends (section 2).
pub struct Buffers<'a> {
    pub x: &'a [u64],
    pub z: &'a mut [u8],
    pub p: &'a [u8],
    pub za: &'a mut [u8],
    pub memory: &'a mut [u8],
}

/// Executes `word` and gives the answer number, and the address and the
/// element that go with it (section 6): both are 0 with every number but 7.
pub fn execute(
    settings: &Settings,
    word: u32,
    x: &[u64],
    z: &mut [u8],
    p: &[u8],
    za: &mut [u8],
    memory: &mut [u8],
) -> (u32, u64, u64) {
    let buffers = Buffers {
        x,
        z,
        p,
        za,
        memory,
    };
    execute_with(Mistake::None, settings, word, buffers)
}

/// Executes `word` with one deliberate mistake, so that a comparison can
/// show that it would notice it.
pub fn execute_with(
    mistake: Mistake,
    settings: &Settings,
    word: u32,
    buffers: Buffers,
) -> (u32, u64, u64) {
    let (number, address, element) = match run(mistake, settings, word, buffers) {
        Ok(()) => (0, 0, 0),
        Err(refusal) => (refusal.number(), refusal.address(), refusal.element()),
    };
    let element = mistake.element_seen(number, element);
    (u32::from(number), address, element)
}

/// The checks stand in the order of their numbers, since the lowest number
/// that applies is given. Loads and stores make the last two themselves, as
/// they need their registers.
fn run(mistake: Mistake, settings: &Settings, word: u32, buffers: Buffers) -> Result<(), Refusal> {
    let level = checks::settings(mistake, settings)?;
    checks::lengths(mistake, settings, &buffers)?;
    let operation = decode(mistake.word_seen(word), level)?;
    checks::switches(settings)?;
    let mut state = State::new(mistake, settings, buffers);
    match operation.kind {
        flat::MOVA_TO_TILE => moves::vector_to_tile(&mut state, &operation),
        flat::MOVA_FROM_TILE => moves::tile_to_vector(&mut state, &operation),
        flat::MOVAZ_FROM_TILE => moves::tile_to_vector_zeroing(&mut state, &operation),
        flat::MOVA_ARRAY => moves::array_to_vectors(&mut state, &operation, false),
        flat::MOVAZ_ARRAY => moves::array_to_vectors(&mut state, &operation, true),
        flat::STORE => store::store(&mut state, &operation),
        // Decoding gives no eighth kind.
        _ => load::load(&mut state, &operation),
    }
}
