//! The answers other than 'done'.

use std::error::Error;
use std::fmt;

/// Why a call was refused. Of several that apply the lowest is given, but for tiles 16 goes before 13, and for a
/// listing 9 comes after 2 and before 3.
#[derive(Clone, Copy, Debug, PartialEq, Eq, Hash)]
#[non_exhaustive]
pub enum Refusal {
    /// 1: the vector length or the largest vector length is not 16, 32, 64, 128 or 256 bytes, the largest is below the
    /// other, or the level is above 3.
    BadSettings,
    /// 2: a buffer has not the length that the largest vector length fixes, or memory ends above 2^64.
    BadLengths,
    /// 3: the word is no instruction of the level.
    Undecodable,
    /// 4: streaming mode is off.
    StreamingOff,
    /// 5: the array is off.
    ZaOff,
    /// 6: the stack pointer is the base of a load or store with an active element, and no multiple of 16; only with
    /// the stack check on.
    StackMisaligned,
    /// 7: a byte of an active element is not in memory; the number of the lowest-numbered such element, and the address
    /// of its first such byte.
    OutsideMemory { address: u64, element: u64 },
    /// 8: no word encodes this operation, or no element has the bytes that were asked for.
    OutOfRange,
    /// 9: the bytes of a listing are not a multiple of 4, so that they are not whole words.
    BadListing,
    /// 13: every tile of the asked size shares a byte with a held one.
    NoFreeTile,
    /// 16: a held tile does not exist, two of them share a byte, or the tile to give up is not held.
    BadHeld,
}

impl Refusal {
    /// The answer's number.
    pub const fn number(self) -> u32 {
        match self {
            Refusal::BadSettings => 1,
            Refusal::BadLengths => 2,
            Refusal::Undecodable => 3,
            Refusal::StreamingOff => 4,
            Refusal::ZaOff => 5,
            Refusal::StackMisaligned => 6,
            Refusal::OutsideMemory { .. } => 7,
            Refusal::OutOfRange => 8,
            Refusal::BadListing => 9,
            Refusal::NoFreeTile => 13,
            Refusal::BadHeld => 16,
        }
    }

    /// The address that answer 7 carries, 0 with every other.
    pub fn address(self) -> u64 {
        match self {
            Refusal::OutsideMemory { address, .. } => address,
            _ => 0,
        }
    }

    /// The element that answer 7 carries, 0 with every other.
    ///
    /// ```
    /// use sme_move::{Machine, Settings};
    ///
    /// let settings = Settings::new(16, 1)?.with_streaming(true).with_za(true);
    /// let mut machine = Machine::new(settings, vec![0; 22])?;
    /// // Four elements of 4 bytes, from address 12 on, of which numbers 1 to 3 are active. Number 2 is at 20 to 23.
    /// machine.state.predicate_mut(0).copy_from_slice(&[0b0001_0000, 0b0001_0001]);
    /// machine.state.x[0] = 12;
    /// let refusal = machine.execute(0xE09F0000).expect_err("memory ends at address 21");
    /// assert_eq!((refusal.number(), refusal.address(), refusal.element()), (7, 22, 2));
    /// # Ok::<(), sme_move::Refusal>(())
    /// ```
    pub fn element(self) -> u64 {
        match self {
            Refusal::OutsideMemory { element, .. } => element,
            _ => 0,
        }
    }

    /// The refusal of a number, and of the address and the element that came with it, which only answer 7 carries on.
    /// None for 0, which is 'done', and for a number that is no answer.
    ///
    /// ```
    /// use sme_move::Refusal;
    ///
    /// assert_eq!(Refusal::of_number(5, 0, 0), Some(Refusal::ZaOff));
    /// assert_eq!(Refusal::of_number(7, 64, 3), Some(Refusal::OutsideMemory { address: 64, element: 3 }));
    /// assert_eq!(Refusal::of_number(0, 0, 0), None);
    /// ```
    pub const fn of_number(number: u32, address: u64, element: u64) -> Option<Refusal> {
        Some(match number {
            1 => Refusal::BadSettings,
            2 => Refusal::BadLengths,
            3 => Refusal::Undecodable,
            4 => Refusal::StreamingOff,
            5 => Refusal::ZaOff,
            6 => Refusal::StackMisaligned,
            7 => Refusal::OutsideMemory { address, element },
            8 => Refusal::OutOfRange,
            9 => Refusal::BadListing,
            13 => Refusal::NoFreeTile,
            16 => Refusal::BadHeld,
            _ => return None,
        })
    }

    /// What an answer of the archive comes to. It gives no number without a meaning, so such a one means that it is
    /// not the archive this crate was written for.
    pub(crate) fn check(number: u32, address: u64, element: u64) -> Result<(), Refusal> {
        match Refusal::of_number(number, address, element) {
            Some(refusal) => Err(refusal),
            None if number == 0 => Ok(()),
            None => panic!("the archive gave answer {number}, which does not exist"),
        }
    }
}

impl fmt::Display for Refusal {
    fn fmt(&self, f: &mut fmt::Formatter<'_>) -> fmt::Result {
        match self {
            Refusal::BadSettings => write!(f, "a vector length or the level is not allowed"),
            Refusal::BadLengths => write!(
                f,
                "a buffer has the wrong length, or memory ends above 2^64"
            ),
            Refusal::Undecodable => write!(f, "the word is no instruction of this level"),
            Refusal::StreamingOff => write!(f, "streaming mode is off"),
            Refusal::ZaOff => write!(f, "the array is off"),
            Refusal::StackMisaligned => write!(f, "the stack pointer is no multiple of 16"),
            Refusal::OutsideMemory { address, element } => write!(
                f,
                "address {address:016X} of element {element} is not in memory"
            ),
            Refusal::OutOfRange => {
                write!(
                    f,
                    "no word encodes this operation, or no element has so many bytes"
                )
            }
            Refusal::BadListing => write!(f, "the listing is not made of whole words"),
            Refusal::NoFreeTile => write!(f, "no tile of this size is free"),
            Refusal::BadHeld => write!(
                f,
                "a held tile does not exist, two share a byte, or the tile is not held"
            ),
        }
    }
}

impl Error for Refusal {}
