//! The refusal numbers of document 01, section 6, as requests 2, 4, 6
//! and 12 amend them, and those that requests 5 and 9 added.

/// Why a word was not decoded or not executed, eleven numbers were not
/// encoded, a listing was not run, or a tile was not taken or not given up.
///
/// Answer 0 (done) is not here: it is the `Ok` side of a result.
#[derive(Clone, Copy, Debug, PartialEq, Eq)]
pub enum Refusal {
    /// 1: the feature level is above the highest one.
    Level,
    /// 1 as well: the vector length is not one of the five.
    VectorLength,
    /// 1 as well: the largest vector length is not one of the five, or is
    /// below the vector length.
    LargestVectorLength,
    /// 2: a buffer has a length that the largest vector length does not fix,
    /// or memory goes beyond 2^64.
    Length,
    /// 3: the word does not decode at this level.
    Undecodable,
    /// 4: streaming is off.
    StreamingOff,
    /// 5: ZA is off.
    ZaOff,
    /// 6: the stack check is on, and the stack pointer is the base and is not
    /// a multiple of 16.
    StackPointer,
    /// 7: a byte of an active element is not in memory. The lowest-numbered
    /// such element, and the address of its first such byte.
    Fault { address: u64, element: u64 },
    /// 8: in encoding, a field outside its range; in taking a tile, an asked
    /// size that is not one of the five.
    Field,
    /// 9: the length of a listing is not a multiple of 4.
    ListingLength,
    /// 13: no tile of the asked size is free.
    NoFreeTile,
    /// 16: a held tile does not exist, two held tiles share a byte, or the
    /// tile to be given up is not held.
    Held,
    /// No number of the table: it stands for the trap of a deliberate
    /// mistake, and nothing else gives it.
    Trap,
}

impl Refusal {
    /// The number that section 6, request 5 or request 9 gives to this refusal.
    pub fn number(self) -> u8 {
        match self {
            Refusal::Level | Refusal::VectorLength | Refusal::LargestVectorLength => 1,
            Refusal::Length => 2,
            Refusal::Undecodable => 3,
            Refusal::StreamingOff => 4,
            Refusal::ZaOff => 5,
            Refusal::StackPointer => 6,
            Refusal::Fault { .. } => 7,
            Refusal::Field => 8,
            Refusal::ListingLength => 9,
            Refusal::NoFreeTile => 13,
            Refusal::Held => 16,
            Refusal::Trap => u8::MAX,
        }
    }

    /// The address that goes with the number: only 7 carries one.
    pub fn address(self) -> u64 {
        match self {
            Refusal::Fault { address, .. } => address,
            _ => 0,
        }
    }

    /// The element that goes with the number: only 7 carries one (request 6).
    pub fn element(self) -> u64 {
        match self {
            Refusal::Fault { element, .. } => element,
            _ => 0,
        }
    }
}
