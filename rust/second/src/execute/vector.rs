//! A temporary vector, Arm's `bits(VL)`, and its elements.

/// The bytes of the largest element.
pub const LARGEST_ELEMENT: usize = 16;
/// The bytes of the longest vector.
const LONGEST: usize = 256;

/// As many bytes as the longest vector; a shorter one uses the first of
/// them.
#[derive(Clone)]
pub struct Vector {
    bytes: [u8; LONGEST],
}

impl Vector {
    pub const ZERO: Vector = Vector {
        bytes: [0; LONGEST],
    };

    /// The vector with these bytes.
    pub fn from_bytes(bytes: &[u8]) -> Vector {
        let mut vector = Vector::ZERO;
        for (own, byte) in vector.bytes.iter_mut().zip(bytes) {
            *own = *byte;
        }
        vector
    }

    /// The first `length` bytes.
    pub fn bytes(&self, length: usize) -> &[u8] {
        &self.bytes[..length]
    }

    /// `Elem[vector, e, esize]`: bytes e*m to e*m+m-1 (section 3).
    pub fn element(&self, e: usize, m: usize) -> u128 {
        join(&self.bytes[e * m..e * m + m])
    }

    /// `Elem[vector, e, esize] = value`.
    pub fn set_element(&mut self, e: usize, m: usize, value: u128) {
        split(value, &mut self.bytes[e * m..e * m + m]);
    }
}

/// The number that up to sixteen bytes hold, the lowest byte first.
pub fn join(bytes: &[u8]) -> u128 {
    let higher_first = bytes.iter().rev();
    higher_first.fold(0, |value, &byte| value << 8 | u128::from(byte))
}

/// The bytes of a number, the lowest first.
pub fn split(mut value: u128, bytes: &mut [u8]) {
    for byte in bytes {
        *byte = value as u8;
        value >>= 8;
    }
}
