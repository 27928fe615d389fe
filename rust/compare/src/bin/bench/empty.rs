//! A call that does nothing: the floor under the times of the archive. It is
//! built as the archive's call is, a function of the binding that calls one
//! with the arguments that the archive's has.

use compare::case::Answered;
use sme_move::{Buffers, Settings};
use std::hint::black_box;

/// How many results the binding asks for.
const RESULTS: usize = 2;

/// The arguments of the archive's function.
type Function = extern "C" fn(
    *const u64,
    usize,
    *const u64,
    usize,
    *mut u8,
    usize,
    *const u8,
    usize,
    *mut u8,
    usize,
    *mut u8,
    usize,
    &mut [u64; RESULTS],
    usize,
    u32,
) -> u32;

/// Takes what the archive's function takes, and is done at once.
#[inline(never)]
extern "C" fn nothing(
    _: *const u64,
    _: usize,
    _: *const u64,
    _: usize,
    _: *mut u8,
    _: usize,
    _: *const u8,
    _: usize,
    _: *mut u8,
    _: usize,
    _: *mut u8,
    _: usize,
    results: &mut [u64; RESULTS],
    _: usize,
    _: u32,
) -> u32 {
    *results = [0; RESULTS];
    0
}

/// As `sme_move::numbers::execute`, with nothing behind it. The compiler is
/// not to know what is called, or it would leave the arguments out.
#[inline(never)]
pub fn execute(settings: Settings, word: u32, buffers: Buffers<'_>) -> Answered {
    let mut results = [u64::MAX; RESULTS];
    let function: Function = black_box(nothing);
    let given = [
        settings.vector_bytes,
        settings.level,
        settings.streaming.into(),
        settings.za.into(),
        settings.memory_address,
        (!settings.stack_check).into(),
        settings.largest_vector_bytes,
    ];
    let answer = function(
        given.as_ptr(),
        given.len(),
        buffers.x.as_ptr(),
        buffers.x.len(),
        buffers.z.as_mut_ptr(),
        buffers.z.len(),
        buffers.p.as_ptr(),
        buffers.p.len(),
        buffers.za.as_mut_ptr(),
        buffers.za.len(),
        buffers.memory.as_mut_ptr(),
        buffers.memory.len(),
        &mut results,
        RESULTS,
        word,
    );
    let [address, element] = results;
    (answer, address, element)
}
