//! Deliberate mistakes: those that document 01, section 8 warns of, three
//! that the words of request 1 invite, six that those of request 2 do, four
//! that show only in long memory, three that the switch of request 4
//! invites, eight that the largest vector length of request 12 does, and
//! eight that the element of request 6 does. With that length equal to B, none
//! of its eight shows; the last eight change nothing but the element.
//!
//! Only the comparison runs them, to show that it would notice each.

use crate::flat;

/// The longest memory that the mistake about long memory lets pass.
const LONGEST_ALLOWED: usize = 4096;
/// The first byte of memory that the mistake about far bytes does not find.
const FIRST_FAR: usize = 1024;
/// How many numbers have 16 bits.
const IN_16_BITS: usize = 1 << 16;
/// The answer that carries an element, and the element of a refusal before it
/// that the mistake about other answers leaves.
const OUTSIDE: u8 = 7;
const LEFT_OVER: u64 = 3;

/// One mistake, or none.
#[derive(Clone, Copy, Debug, PartialEq, Eq)]
pub enum Mistake {
    None,
    /// Tile t of m bytes is taken as the neighbouring vectors t*n to
    /// t*n+n-1.
    TileAsBlock,
    /// The slice number is reduced by the vector length in bytes.
    SliceModuloVectorLength,
    /// Register 31 reads as zero for the base.
    BaseThirtyOneAsZero,
    /// Register 31 reads as the stack pointer for the offset.
    OffsetThirtyOneAsStackPointer,
    /// The predicate is tested at bit e, whatever the element size.
    PredicateBitPerElement,
    /// A store writes its first bytes before a later one faults.
    StoreBeforeFault,
    /// The 32-bit index is added with a trap at its top. (With an add that
    /// wraps there, nothing would go wrong: every modulus of section 5 is a
    /// power of two and so divides 2^32.)
    IndexAddTrapsAt32Bits,
    /// MOVA from tile sets the inactive elements of its register to zero.
    InactiveZeroed,
    /// The array forms of four registers have the stride of those of two,
    /// B/2, and count on from the front at the end of ZA.
    FourByStrideOfTwo,
    /// A move from a tile is taken as MOVA whatever bit 9 is.
    BitNineIgnored,
    /// A load keeps the inactive elements of its slice.
    LoadKeepsInactive,
    /// A load keeps the elements of its slice after the last active one: all
    /// of them, if none is active.
    LoadKeepsTrailing,
    /// The offset register of a load or store is not multiplied by m; the
    /// element number is.
    OffsetNotScaled,
    /// Answer 7 carries the address at which the element starts.
    FaultAtElement,
    /// Only the first byte of each element is looked for in memory. Of the
    /// others, those outside are not written, and read as zero.
    FirstByteChecked,
    /// The highest byte of an element is first in memory.
    BigEndian,
    /// Memory of more than 4,096 bytes is refused with 2, whatever the word.
    LongMemoryRefused,
    /// Bytes of memory from number 1,024 on are taken to be outside, and
    /// refused with 7.
    FarBytesOutside,
    /// Of the length of memory, accesses know the low 16 bits.
    MemoryLengthIn16Bits,
    /// A byte of memory is found, and then looked for at the low 16 bits of
    /// its number.
    MemoryOffsetIn16Bits,
    /// The switch of the stack check is not looked at: the check is on.
    StackSwitchIgnored,
    /// The switch of the stack check is read the wrong way round.
    StackSwitchInverted,
    /// The switch of the stack check is looked at for stores; a load is
    /// always checked.
    StackSwitchForStoresOnly,
    /// Vector registers are taken to start B bytes apart.
    RegistersPacked,
    /// Predicate registers are taken to start B/8 bytes apart.
    PredicatesPacked,
    /// ZA vectors are taken to start B bytes apart.
    ZaVectorsPacked,
    /// The lengths of Z, P and ZA are compared with what B would fix. In
    /// buffers that pass there is room for vectors B bytes apart only, and
    /// so they are taken to be.
    LengthsByVectorLength,
    /// A largest length that is one of the five is accepted below B too, and
    /// is then taken as B.
    LargestBelowAccepted,
    /// MOVAZ from tile and the array forms set the bytes beyond B of their
    /// registers to zero.
    BeyondCleared,
    /// The array forms have a stride of the largest length over r, for r
    /// registers, and reduce the first vector by it: their groups take in ZA
    /// vectors from B on.
    GroupsByLargest,
    /// The slice number is reduced by the largest length over m: slices that
    /// the tile does not have are found beyond B.
    SlicesByLargest,
    /// Answer 7 carries the number, within the slice, of the byte outside in
    /// place of the element's.
    ElementAsByteOfSlice,
    /// The same of its number within the element.
    ElementAsByte,
    /// For a vertical slice answer 7 carries the number of the ZA vector that
    /// the element is in.
    ElementAsVector,
    /// Answer 7 carries the first active element, outside or not.
    ElementFirstActive,
    /// The element is numbered among the active ones alone.
    ElementAmongActive,
    /// Answer 7 carries the lowest element outside, active or not.
    ElementInactive,
    /// Of the active elements outside, answer 7 carries the one that starts at
    /// the lowest address.
    ElementLowestInMemory,
    /// Only answer 7 writes the element: with every other answer the host
    /// finds the one of a refusal before.
    ElementLeftOver,
}

impl Mistake {
    /// Every mistake, with the name that the command line has for it.
    pub const NAMED: [(&'static str, Mistake); 39] = [
        ("TileAsBlock", Mistake::TileAsBlock),
        ("SliceModuloVectorLength", Mistake::SliceModuloVectorLength),
        ("BaseThirtyOneAsZero", Mistake::BaseThirtyOneAsZero),
        (
            "OffsetThirtyOneAsStackPointer",
            Mistake::OffsetThirtyOneAsStackPointer,
        ),
        ("PredicateBitPerElement", Mistake::PredicateBitPerElement),
        ("StoreBeforeFault", Mistake::StoreBeforeFault),
        ("IndexAddTrapsAt32Bits", Mistake::IndexAddTrapsAt32Bits),
        ("InactiveZeroed", Mistake::InactiveZeroed),
        ("FourByStrideOfTwo", Mistake::FourByStrideOfTwo),
        ("BitNineIgnored", Mistake::BitNineIgnored),
        ("LoadKeepsInactive", Mistake::LoadKeepsInactive),
        ("LoadKeepsTrailing", Mistake::LoadKeepsTrailing),
        ("OffsetNotScaled", Mistake::OffsetNotScaled),
        ("FaultAtElement", Mistake::FaultAtElement),
        ("FirstByteChecked", Mistake::FirstByteChecked),
        ("BigEndian", Mistake::BigEndian),
        ("LongMemoryRefused", Mistake::LongMemoryRefused),
        ("FarBytesOutside", Mistake::FarBytesOutside),
        ("MemoryLengthIn16Bits", Mistake::MemoryLengthIn16Bits),
        ("MemoryOffsetIn16Bits", Mistake::MemoryOffsetIn16Bits),
        ("StackSwitchIgnored", Mistake::StackSwitchIgnored),
        ("StackSwitchInverted", Mistake::StackSwitchInverted),
        (
            "StackSwitchForStoresOnly",
            Mistake::StackSwitchForStoresOnly,
        ),
        ("RegistersPacked", Mistake::RegistersPacked),
        ("PredicatesPacked", Mistake::PredicatesPacked),
        ("ZaVectorsPacked", Mistake::ZaVectorsPacked),
        ("LengthsByVectorLength", Mistake::LengthsByVectorLength),
        ("LargestBelowAccepted", Mistake::LargestBelowAccepted),
        ("BeyondCleared", Mistake::BeyondCleared),
        ("GroupsByLargest", Mistake::GroupsByLargest),
        ("SlicesByLargest", Mistake::SlicesByLargest),
        ("ElementAsByteOfSlice", Mistake::ElementAsByteOfSlice),
        ("ElementAsByte", Mistake::ElementAsByte),
        ("ElementAsVector", Mistake::ElementAsVector),
        ("ElementFirstActive", Mistake::ElementFirstActive),
        ("ElementAmongActive", Mistake::ElementAmongActive),
        ("ElementInactive", Mistake::ElementInactive),
        ("ElementLowestInMemory", Mistake::ElementLowestInMemory),
        ("ElementLeftOver", Mistake::ElementLeftOver),
    ];

    /// The mistake of that name.
    pub fn named(name: &str) -> Option<Mistake> {
        let mut named = Mistake::NAMED.iter();
        named.find(|(own, _)| *own == name).map(|&(_, found)| found)
    }

    /// The word that decoding is given: the word itself, but for the mistake
    /// about bit 9. The moves from a tile have C0 in bits 31:24 and 00001 in
    /// bits 21:17.
    pub fn word_seen(self, word: u32) -> u32 {
        let from_tile = word & 0xFF3E_0000 == 0xC002_0000;
        if self == Mistake::BitNineIgnored && from_tile {
            return word & !0x200;
        }
        word
    }

    /// Whether memory may have this length, as far as the length goes: any,
    /// but for the mistake about long memory.
    pub fn allows_memory(self, length: usize) -> bool {
        self != Mistake::LongMemoryRefused || length <= LONGEST_ALLOWED
    }

    /// How many bytes an access finds in memory of this length: all of them,
    /// but for two mistakes.
    pub fn length_seen(self, length: usize) -> usize {
        match self {
            Mistake::FarBytesOutside => length.min(FIRST_FAR),
            Mistake::MemoryLengthIn16Bits => length % IN_16_BITS,
            _ => length,
        }
    }

    /// Where an access looks for the byte of this number: there, but for one
    /// mistake.
    pub fn offset_seen(self, offset: usize) -> usize {
        match self {
            Mistake::MemoryOffsetIn16Bits => offset % IN_16_BITS,
            _ => offset,
        }
    }

    /// Whether an access of this kind finds the stack check on: as the switch
    /// stands, but for three mistakes.
    pub fn stack_check_seen(self, on: bool, kind: u8) -> bool {
        match self {
            Mistake::StackSwitchIgnored => true,
            Mistake::StackSwitchInverted => !on,
            Mistake::StackSwitchForStoresOnly => on || kind == flat::LOAD,
            _ => on,
        }
    }

    /// Whether the largest length may go with this vector length, both being
    /// of the five: if it is not below, but for one mistake.
    pub fn allows_largest(self, largest: u64, vector_bytes: u64) -> bool {
        self == Mistake::LargestBelowAccepted || largest >= vector_bytes
    }

    /// The vector length that the buffers are taken to be laid out for: the
    /// largest, but for two mistakes.
    pub fn largest_seen(self, largest: usize, vector_bytes: usize) -> usize {
        match self {
            Mistake::LengthsByVectorLength => vector_bytes,
            Mistake::LargestBelowAccepted => largest.max(vector_bytes),
            _ => largest,
        }
    }

    /// The element that the host finds beside an answer of this number: the
    /// one that goes with it, but for one mistake.
    pub fn element_seen(self, number: u8, element: u64) -> u64 {
        if self == Mistake::ElementLeftOver && number != OUTSIDE {
            return LEFT_OVER;
        }
        element
    }
}
