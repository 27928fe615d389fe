//! Predicates of whole bytes and blocks: a unit may take a byte whose bits are
//! all alike otherwise than one whose bits are not, and eight of them together.

use crate::paths::bits::{bits, can_mix, looked_at, Bits, BLOCK};
use second::inputs::random::Random;

/// Each byte has all its bits, none of them, or random ones.
pub fn bytes(random: &mut Random, register: &mut [u8], m: usize) {
    fill_bytes(random, register);
    stray(random, register, m);
}

/// Each block of eight bytes has all its bits, none of them, or bytes that are
/// all mixed, or goes by byte. A register that is shorter has one of these.
pub fn blocks(random: &mut Random, register: &mut [u8], m: usize) {
    for block in register.chunks_mut(BLOCK) {
        match random.below(4) {
            0 => block.fill(0xFF),
            1 => block.fill(0),
            2 => mix(random, block, m),
            _ => fill_bytes(random, block),
        }
    }
    stray(random, register, m);
}

fn fill_bytes(random: &mut Random, bytes: &mut [u8]) {
    for byte in bytes {
        *byte = match random.below(3) {
            0 => 0xFF,
            1 => 0,
            _ => random.byte(),
        };
    }
}

/// Random bytes of which each has some of the bits that are looked at and not
/// all. Where there is but one such bit, or none, they are random alone.
fn mix(random: &mut Random, block: &mut [u8], m: usize) {
    for (number, byte) in block.iter_mut().enumerate() {
        let looked_at = looked_at(m, number);
        *byte = random.byte();
        while can_mix(looked_at) && bits(*byte, looked_at) != Bits::Mixed {
            *byte = random.byte();
        }
    }
}

/// Often makes the bits random that are not looked at, so that a byte is not
/// told by them.
fn stray(random: &mut Random, register: &mut [u8], m: usize) {
    if random.chance(1, 2) {
        for (number, byte) in register.iter_mut().enumerate() {
            let looked_at = looked_at(m, number);
            *byte = *byte & looked_at | random.byte() & !looked_at;
        }
    }
}

#[cfg(test)]
mod tests {
    use super::*;
    use crate::paths::bits::alike;

    const SIZES: [usize; 5] = [1, 2, 4, 8, 16];

    #[test]
    fn mixed_bytes_are_mixed_where_they_can_be() {
        let mut random = Random::new(5);
        for m in [1, 2, 4] {
            for _ in 0..100 {
                let mut block = [0; BLOCK];
                mix(&mut random, &mut block, m);
                assert_eq!(alike(&block, m), Some(Bits::Mixed), "{m}: {block:02X?}");
            }
        }
    }

    /// Blocks of one register are drawn each for itself, and every kind of
    /// block that a size has is among them.
    #[test]
    fn blocks_are_of_every_kind() {
        let mut random = Random::new(6);
        for m in SIZES {
            let mut found = Vec::new();
            let mut differ = false;
            for _ in 0..100 {
                let mut register = [0; 4 * BLOCK];
                blocks(&mut random, &mut register, m);
                let kinds: Vec<_> = register.chunks(BLOCK).map(|own| alike(own, m)).collect();
                differ |= kinds.iter().any(|own| *own != kinds[0]);
                found.extend(kinds);
            }
            assert!(differ);
            for kind in [Some(Bits::Set), Some(Bits::Clear), None] {
                assert!(found.contains(&kind), "{m}: {kind:?}");
            }
            assert_eq!(found.contains(&Some(Bits::Mixed)), m <= 4, "{m}");
        }
    }

    /// What is looked at stays, and every other bit can be either.
    #[test]
    fn stray_bits_are_those_that_no_element_goes_by() {
        let mut random = Random::new(7);
        for m in SIZES {
            for byte in [0, 0xFF] {
                let mut changed = [0; 4];
                for _ in 0..100 {
                    let mut register = [byte; 4];
                    stray(&mut random, &mut register, m);
                    for (own, changed) in register.into_iter().zip(&mut changed) {
                        *changed |= own ^ byte;
                    }
                }
                let others = [0, 1, 2, 3].map(|number| !looked_at(m, number));
                assert_eq!(changed, others, "{m}");
            }
        }
    }
}
