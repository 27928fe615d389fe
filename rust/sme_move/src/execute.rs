//! Execution of one word.

use crate::answer::Refusal;
use crate::numbers;
use crate::settings::Settings;

/// The buffers that a host lends for one call, none of which overlap.
pub struct Buffers<'a> {
    /// The 31 general-purpose registers and, as number 31, the stack pointer.
    pub x: &'a [u64],
    /// The 32 vector registers, each where the largest vector length has it start.
    pub z: &'a mut [u8],
    /// The 16 predicate registers, an eighth of that apart, with a bit for each byte of a vector.
    pub p: &'a [u8],
    /// The array, vector 0 first, as many vectors as the largest vector length has bytes.
    pub za: &'a mut [u8],
    /// Memory from the settings' memory address on, of any length. Only a store writes it.
    pub memory: &'a mut [u8],
}

/// Executes one instruction word. A refusal changes no buffer.
///
/// ```
/// use sme_move::{execute, Buffers, Refusal, Settings};
///
/// let settings = Settings::new(16, 1)?.with_streaming(true);
/// let (mut z, mut za) = ([0; 512], [0; 256]);
/// let buffers = Buffers { x: &[0; 32], z: &mut z, p: &[0; 32], za: &mut za, memory: &mut [] };
/// assert_eq!(execute(settings, 0xC0000000, buffers), Err(Refusal::ZaOff));
/// # Ok::<(), Refusal>(())
/// ```
#[inline]
pub fn execute(settings: Settings, word: u32, buffers: Buffers<'_>) -> Result<(), Refusal> {
    let (number, address, element) = numbers::execute(settings, word, buffers);
    Refusal::check(number, address, element)
}
