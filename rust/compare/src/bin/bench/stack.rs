//! Where the stack is when calls are made. The system puts it elsewhere in
//! every run, and a call whose arguments lie across two lines of the cache is
//! slower than the same call in another run. So each round has its place, and
//! the least of them counts.

use std::hint::black_box;
use std::mem::MaybeUninit;

/// How many places there are: as many as a line of the cache has for what is
/// aligned to 16 bytes.
pub const PLACES: usize = 4;

/// Runs with the stack at the place of this round. From one place to the next
/// are 1040 bytes: a quarter of a page and another part of a line.
pub fn shifted(round: usize, run: &mut dyn FnMut()) {
    match round % PLACES {
        0 => padded::<16>(run),
        1 => padded::<1056>(run),
        2 => padded::<2096>(run),
        _ => padded::<3136>(run),
    }
}

/// Nothing is written to the padding, so that this is the same code for any
/// number of bytes, with the same room for all else.
#[inline(never)]
fn padded<const BYTES: usize>(run: &mut dyn FnMut()) {
    let padding = [const { MaybeUninit::<u8>::uninit() }; BYTES];
    black_box(&padding);
    run();
    black_box(&padding);
}

#[cfg(test)]
mod tests {
    use super::*;
    use std::collections::HashSet;

    /// Where a call made here has its stack.
    #[inline(never)]
    fn address() -> usize {
        let here = 0u8;
        (black_box(&here) as *const u8).addr()
    }

    #[test]
    fn the_places_are_in_all_parts_of_a_line() {
        let mut parts = HashSet::new();
        for round in 0..PLACES {
            let part = |address: usize| address % 64 / 16;
            shifted(round, &mut || {
                parts.insert(part(address()));
            });
        }
        assert_eq!(parts.len(), PLACES);
    }
}
