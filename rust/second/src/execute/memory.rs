//! Memory: bytes from an address on (document 01, section 2).

use super::Mistake;

/// Memory that ends at 2^64 or before, and the mistake to be made on it.
pub struct Memory<'a> {
    mistake: Mistake,
    address: u64,
    bytes: &'a mut [u8],
}

impl<'a> Memory<'a> {
    pub fn new(mistake: Mistake, address: u64, bytes: &'a mut [u8]) -> Memory<'a> {
        Memory {
            mistake,
            address,
            bytes,
        }
    }

    /// The byte at `address`, if it is in memory. The end may be 2^64, which
    /// no address can name, so the test is over wider numbers.
    fn place(&self, address: u64) -> Option<usize> {
        let first = u128::from(self.address);
        let end = first + self.mistake.length_seen(self.bytes.len()) as u128;
        let wanted = u128::from(address);
        let found = first <= wanted && wanted < end;
        found.then(|| self.mistake.offset_seen((wanted - first) as usize))
    }

    pub fn has(&self, address: u64) -> bool {
        self.place(address).is_some()
    }

    /// Reads one byte, if the address is in memory.
    pub fn read(&self, address: u64) -> Option<u8> {
        self.place(address).map(|place| self.bytes[place])
    }

    /// Writes one byte; false if the address is not in memory.
    pub fn write(&mut self, address: u64, byte: u8) -> bool {
        let Some(place) = self.place(address) else {
            return false;
        };
        self.bytes[place] = byte;
        true
    }
}
