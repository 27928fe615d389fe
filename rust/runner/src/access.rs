//! Where a load or store goes in memory.

use crate::operation::Access;

/// The register number that is the stack pointer as base, and zero as offset.
const THIRTY_ONE: u8 = 31;

/// The address of element 0: the base and the offset times the element's bytes, modulo 2^64.
pub fn first_address(access: Access, registers: &[u64]) -> u64 {
    let offset = match access.offset_register {
        THIRTY_ONE => 0,
        register => registers[usize::from(register)],
    };
    let scaled = offset.wrapping_mul(u64::from(access.size.bytes()));
    registers[usize::from(access.base)].wrapping_add(scaled)
}

/// How that address is made.
pub fn sum(access: Access) -> String {
    let base = match access.base {
        THIRTY_ONE => "the stack pointer".to_string(),
        base => format!("register {base}"),
    };
    match (access.offset_register, access.size.bytes()) {
        (THIRTY_ONE, _) => format!("{base} + zero"),
        (offset, 1) => format!("{base} + register {offset}"),
        (offset, times) => format!("{base} + {times} times register {offset}"),
    }
}

#[cfg(test)]
mod tests {
    use super::*;
    use crate::operation::Parts;
    use sme_move::{decode, Refusal, Settings, State};

    fn access(word: u32) -> Access {
        let operation = decode(word, 1).expect("the word decodes");
        Parts::of(operation).access.expect("a load or store")
    }

    #[test]
    fn the_offset_register_is_scaled() {
        for (word, expected) in [
            (0xE0220020, "register 1 + register 2"),
            (0xE0820020, "register 1 + 4 times register 2"),
            (0xE1E203E0, "the stack pointer + 16 times register 2"),
            (0xE05F03E0, "the stack pointer + zero"),
        ] {
            assert_eq!(sum(access(word)), expected);
        }
    }

    /// What is said of the address is checked against the unit: without memory it tells element 0's.
    #[test]
    fn the_address_of_element_0_is_the_one_that_the_unit_misses() {
        let settings = Settings::new(16, 1).expect("16 bytes are allowed");
        let settings = settings.with_streaming(true).with_za(true);
        let mut state = State::new(settings).expect("these settings are good");
        state.p.fill(1);
        for (number, register) in state.x.iter_mut().enumerate() {
            *register = 0xFEDC_BA98_7654_3210 >> (2 * number);
        }
        state.x[31] = u64::MAX - 15;
        for word in [
            0xE0220020, 0xE0620020, 0xE0AF0020, 0xE0F00020, 0xE1FE0020, 0xE0020020, 0xE0450020,
            0xE08603E0, 0xE0C703E0, 0xE1C803E0, 0xE1DF03E0, 0xE05F0100,
        ] {
            let address = first_address(access(word), &state.x);
            let answer = state.execute(settings, word, &mut []);
            let outside = Refusal::OutsideMemory {
                address,
                element: 0,
            };
            assert_eq!(answer, Err(outside), "{word:08X}");
        }
    }
}
