//! Answers 1, 2, 4 and 5 (document 01, section 6, as request 12 amends 1 and
//! 2). The first two are asked for by a listing as well, which may have no word
//! that would be executed (request 5).

use super::layout::Layout;
use super::{Buffers, Mistake, Settings, VECTOR_LENGTHS};
use crate::refusal::Refusal;

/// The highest feature level, SME2.1 (section 2).
const HIGHEST_LEVEL: u64 = 3;
/// One past the last address.
const ADDRESSES: u128 = 1 << 64;

/// Answer 1. The level is handed back in the width that decoding takes: a
/// level of 256 must not become 0 on the way.
pub fn settings(mistake: Mistake, settings: &Settings) -> Result<u8, Refusal> {
    let (vector_bytes, largest) = (settings.vector_bytes, settings.largest_vector_bytes);
    if !VECTOR_LENGTHS.contains(&vector_bytes) {
        return Err(Refusal::VectorLength);
    }
    if !VECTOR_LENGTHS.contains(&largest) || !mistake.allows_largest(largest, vector_bytes) {
        return Err(Refusal::LargestVectorLength);
    }
    if settings.level > HIGHEST_LEVEL {
        return Err(Refusal::Level);
    }
    Ok(settings.level as u8)
}

/// Answer 2, with both vector lengths among the five: section 2 fixes four
/// lengths, all but that of X by the largest, and memory must end at 2^64 or
/// before.
pub fn lengths(mistake: Mistake, settings: &Settings, buffers: &Buffers) -> Result<(), Refusal> {
    let layout = Layout::new(mistake, settings);
    let fixed = buffers.x.len() == 32
        && buffers.z.len() == layout.z_length()
        && buffers.p.len() == layout.p_length()
        && buffers.za.len() == layout.za_length();
    let memory_end = u128::from(settings.memory_address) + buffers.memory.len() as u128;
    if fixed && memory_end <= ADDRESSES && mistake.allows_memory(buffers.memory.len()) {
        Ok(())
    } else {
        Err(Refusal::Length)
    }
}

/// Answers 4 and 5.
pub fn switches(settings: &Settings) -> Result<(), Refusal> {
    if !settings.streaming {
        return Err(Refusal::StreamingOff);
    }
    if !settings.za_on {
        return Err(Refusal::ZaOff);
    }
    Ok(())
}
