//! What a predicate's bits are, of those that elements of one size go by.

/// How many predicate bytes a unit can look at together, as one number.
pub const BLOCK: usize = 8;

/// What the bits of a byte are that elements go by.
#[derive(Clone, Copy, Debug, PartialEq, Eq)]
pub enum Bits {
    Set,
    Clear,
    Mixed,
}

/// The bits of a predicate's byte that elements of m bytes go by: those that
/// are multiples of m, counted from the predicate's first (document 01,
/// section 3). Of elements of 16 bytes every other byte has none.
pub fn looked_at(m: usize, byte: usize) -> u8 {
    let own = |bit: &usize| (8 * byte + bit).is_multiple_of(m);
    (0..8).filter(own).fold(0, |bits, bit| bits | 1 << bit)
}

/// Whether a byte can have some of these bits and not all. With one bit alone
/// it cannot.
pub fn can_mix(looked_at: u8) -> bool {
    looked_at.count_ones() > 1
}

/// What a byte is under the bits that are looked at, of which there is one or
/// more.
pub fn bits(byte: u8, looked_at: u8) -> Bits {
    match byte & looked_at {
        0 => Bits::Clear,
        all if all == looked_at => Bits::Set,
        _ => Bits::Mixed,
    }
}

/// The same of each byte that elements of m bytes go by. The first byte is
/// that of a predicate or of a block, which both begin with an element.
pub fn each(bytes: &[u8], m: usize) -> impl Iterator<Item = Bits> + '_ {
    let bytes = bytes.iter().enumerate();
    let bytes = bytes.map(move |(number, byte)| (*byte, looked_at(m, number)));
    let bytes = bytes.filter(|(_, looked_at)| *looked_at != 0);
    bytes.map(|(byte, looked_at)| bits(byte, looked_at))
}

/// What these bytes all are, if they are alike.
pub fn alike(bytes: &[u8], m: usize) -> Option<Bits> {
    let mut each = each(bytes, m);
    let first = each.next()?;
    each.all(|own| own == first).then_some(first)
}
