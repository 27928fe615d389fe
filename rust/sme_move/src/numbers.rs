//! The archive's functions as they are, answers as numbers, for hosts that want these. All unsafe code of
//! this package is here.

use crate::execute::Buffers;
use crate::settings::Settings;

/// What a result holds before the call, so that tests notice one that is not written.
const UNWRITTEN: u64 = 0x5A5A_5A5A_5A5A_5A5A;

extern "C" {
    fn sme_version_0_8() -> u32;
    fn sme_version_0_9() -> u32;
    fn sme_execute_word(
        settings: *const u64,
        settings_len: usize,
        x: *const u64,
        x_len: usize,
        z: *mut u8,
        z_len: usize,
        p: *const u8,
        p_len: usize,
        za: *mut u8,
        za_len: usize,
        memory: *mut u8,
        memory_len: usize,
        results: *mut u64,
        results_len: usize,
        word: u32,
    ) -> u32;
    fn sme_run_listing(
        settings: *const u64,
        settings_len: usize,
        x: *const u64,
        x_len: usize,
        z: *mut u8,
        z_len: usize,
        p: *const u8,
        p_len: usize,
        za: *mut u8,
        za_len: usize,
        memory: *mut u8,
        memory_len: usize,
        results: *mut u64,
        results_len: usize,
        listing: *const u8,
        listing_len: usize,
        allowance: u64,
    ) -> u32;
    fn sme_decode(word: u32, level: u64, fields: *mut [u8; 11]) -> u32;
    fn sme_encode(fields: *const [u8; 11], word: *mut u32) -> u32;
    fn sme_check(settings: *const u64, settings_len: usize) -> u32;
    fn sme_measure(settings: *const u64, settings_len: usize, lengths: *mut [u64; 4]) -> u32;
    fn sme_take_tile(
        tiles: *mut u64,
        tiles_len: usize,
        count: *mut usize,
        element_bytes: u64,
        tile: *mut u64,
    ) -> u32;
    fn sme_give_up_tile(
        tiles: *mut u64,
        tiles_len: usize,
        count: *mut usize,
        element_bytes: u64,
        tile: u64,
    ) -> u32;
}

/// The version of the functions that this package is written for, but for those of listings: 65536 times the major
/// number and the minor one.
pub const VERSION: u32 = 8;

/// That of the functions for listings, likewise.
pub const LISTING_VERSION: u32 = 9;

/// The version of the archive. It is never less than [`VERSION`]: an older archive has no such function, so that a
/// program that uses this package does not link with it.
///
/// ```
/// use sme_move::numbers;
///
/// assert!(numbers::version() >= numbers::VERSION);
/// ```
pub fn version() -> u32 {
    // SAFETY: a number only.
    unsafe { sme_version_0_8() }
}

/// The archive's version of the functions for listings.
pub fn listing_version() -> u32 {
    // SAFETY: a number only.
    unsafe { sme_version_0_9() }
}

/// For the linker, in programs that do not ask for the version too.
#[used]
static NEEDED: unsafe extern "C" fn() -> u32 = sme_version_0_9;

/// The settings as the archive's functions take them.
#[inline]
fn given(settings: Settings) -> [u64; 7] {
    let Settings {
        vector_bytes,
        level,
        streaming,
        za,
        memory_address,
        stack_check,
        largest_vector_bytes,
    } = settings;
    [
        vector_bytes,
        level,
        streaming.into(),
        za.into(),
        memory_address,
        (!stack_check).into(),
        largest_vector_bytes,
    ]
}

/// Executes a word: the answer's number, and the address and the element that 7 carries, both 0 with every other.
#[inline]
pub fn execute(settings: Settings, word: u32, buffers: Buffers<'_>) -> (u32, u64, u64) {
    // First, since the archive reads it first: so it has been written by then, and fewer registers are in use here.
    let given = given(settings);
    let Buffers {
        x,
        z,
        p,
        za,
        memory,
    } = buffers;
    let mut results = [UNWRITTEN; 2];
    // SAFETY: each pointer comes from a slice or an array that lives through the call and goes with its
    // length. What is written is borrowed as writable, so it overlaps nothing;
    // settings, X and P are only read.
    let number = unsafe {
        sme_execute_word(
            given.as_ptr(),
            given.len(),
            x.as_ptr(),
            x.len(),
            z.as_mut_ptr(),
            z.len(),
            p.as_ptr(),
            p.len(),
            za.as_mut_ptr(),
            za.len(),
            memory.as_mut_ptr(),
            memory.len(),
            results.as_mut_ptr(),
            results.len(),
            word,
        )
    };
    let [address, element] = results;
    (number, address, element)
}

/// Runs a listing, of which four bytes are a word, the lowest first: the answer's number, the address and the element
/// that 7 carries, both 0 with every other, and how many words were done. At most as many are run as the allowance says.
#[inline]
pub fn run_listing(
    settings: Settings,
    listing: &[u8],
    allowance: u64,
    buffers: Buffers<'_>,
) -> (u32, u64, u64, u64) {
    let given = given(settings);
    let Buffers {
        x,
        z,
        p,
        za,
        memory,
    } = buffers;
    let mut results = [UNWRITTEN; 3];
    // SAFETY: as above, and the listing is only read.
    let number = unsafe {
        sme_run_listing(
            given.as_ptr(),
            given.len(),
            x.as_ptr(),
            x.len(),
            z.as_mut_ptr(),
            z.len(),
            p.as_ptr(),
            p.len(),
            za.as_mut_ptr(),
            za.len(),
            memory.as_mut_ptr(),
            memory.len(),
            results.as_mut_ptr(),
            results.len(),
            listing.as_ptr(),
            listing.len(),
            allowance,
        )
    };
    let [address, element, words] = results;
    (number, address, element, words)
}

/// Decodes a word: 0 with its eleven numbers written, or 1 or 3 with `fields` as it was.
pub fn decode(word: u32, level: u64, fields: &mut [u8; 11]) -> u32 {
    // SAFETY: `fields` is a writable place of eleven bytes that lives through the call.
    unsafe { sme_decode(word, level, fields) }
}

/// Encodes eleven numbers: 0 with the word written, or 8 with 0 written.
pub fn encode(fields: &[u8; 11], word: &mut u32) -> u32 {
    // SAFETY: both are places of their types that live through the call, and `word` is writable.
    unsafe { sme_encode(fields, word) }
}

/// 0 where a machine may have these settings, else 1.
pub fn check(settings: Settings) -> u32 {
    let given = given(settings);
    // SAFETY: the pointer comes from an array that lives through the call, and goes with its length.
    unsafe { sme_check(given.as_ptr(), given.len()) }
}

/// 0 with the lengths of X (in numbers), Z, P and ZA (in bytes) that the settings fix written, or 1 with `lengths` as it was.
/// Only the two vector lengths are checked.
pub fn measure(settings: Settings, lengths: &mut [u64; 4]) -> u32 {
    let given = given(settings);
    // SAFETY: as above, and `lengths` is a writable place of four numbers that lives through the call.
    unsafe { sme_measure(given.as_ptr(), given.len(), lengths) }
}

/// [`check`] of new settings of this vector length and level, with buffers for this length.
pub fn check_settings(vector_bytes: u64, level: u64) -> u32 {
    check(Settings::unchecked(vector_bytes, level))
}

/// [`measure`] of new settings of this vector length, with buffers for it.
pub fn lengths(vector_bytes: u64, lengths: &mut [u64; 4]) -> u32 {
    measure(Settings::unchecked(vector_bytes, 0), lengths)
}

/// Takes a tile: the answer's number, and the tile's, 0 with a refusal. Two numbers of `tiles` are a held tile, of
/// which there are `count`; a refusal leaves both as they were.
pub fn take_tile(tiles: &mut [u64], count: &mut usize, element_bytes: u64) -> (u32, u64) {
    let mut tile = UNWRITTEN;
    // SAFETY: the pointers come from a slice, which goes with its length, and from two places of their types. All
    // live through the call, are writable and overlap nothing.
    let number = unsafe {
        sme_take_tile(
            tiles.as_mut_ptr(),
            tiles.len(),
            count,
            element_bytes,
            &mut tile,
        )
    };
    (number, tile)
}

/// Gives up a tile: 0 with `tiles` and `count` those of the others, or 16 with both as they were.
pub fn give_up_tile(tiles: &mut [u64], count: &mut usize, element_bytes: u64, tile: u64) -> u32 {
    // SAFETY: as above.
    unsafe { sme_give_up_tile(tiles.as_mut_ptr(), tiles.len(), count, element_bytes, tile) }
}
