//! A whole state for the execution tests, every byte unlike its neighbours.

use crate::execute::{execute_with, Buffers, Mistake, Settings};
use crate::listing::{self, ListingMistake, Ran};

/// The number, the address and the element that a word is answered with.
pub type Answer = (u32, u64, u64);

pub const DONE: Answer = plain(0);

/// An answer with no address and no element, as every one but 7 is.
pub const fn plain(number: u32) -> Answer {
    (number, 0, 0)
}

/// Settings and buffers of the lengths that they fix.
#[derive(Clone, Debug, PartialEq)]
pub struct Machine {
    pub settings: Settings,
    pub x: Vec<u64>,
    pub z: Vec<u8>,
    pub p: Vec<u8>,
    pub za: Vec<u8>,
    pub memory: Vec<u8>,
}

/// Bytes that differ from their neighbours in a vector and in a column:
/// both steps are odd, so neither repeats within 256 of them.
fn bytes(start: usize, length: usize) -> Vec<u8> {
    let byte = |at: usize| (start + 151 * at + 29 * (at / 256)) as u8;
    (0..length).map(byte).collect()
}

impl Machine {
    /// Level 3, every switch on, memory of 64 bytes at address 0, no active
    /// element in any predicate, and buffers for no longer vectors.
    pub fn new(vector_bytes: usize) -> Machine {
        Machine::in_long_buffers(vector_bytes, vector_bytes)
    }

    /// The same with buffers for vectors of `largest` bytes.
    pub fn in_long_buffers(vector_bytes: usize, largest: usize) -> Machine {
        Machine {
            settings: Settings {
                vector_bytes: vector_bytes as u64,
                level: 3,
                streaming: true,
                za_on: true,
                memory_address: 0,
                stack_check: true,
                largest_vector_bytes: largest as u64,
            },
            x: (0..32)
                .map(|number| 0xABCD_0123_4567_0000 + number)
                .collect(),
            z: bytes(3, 32 * largest),
            p: vec![0; 2 * largest],
            za: bytes(90, largest * largest),
            memory: bytes(200, 64),
        }
    }

    pub fn vector_bytes(&self) -> usize {
        self.settings.vector_bytes as usize
    }

    /// Where a vector starts in Z or ZA.
    fn start(&self, number: usize) -> usize {
        number * self.settings.largest_vector_bytes as usize
    }

    /// Other memory: `length` bytes from `address` on.
    pub fn set_memory(&mut self, address: u64, length: usize) {
        self.settings.memory_address = address;
        self.memory = bytes(200, length);
    }

    /// Sets the low 32 bits of an index register and fills the others, which
    /// must not matter.
    pub fn set_w(&mut self, register: usize, w: u32) {
        self.x[register] = 0x9876_5432 << 32 | u64::from(w);
    }

    /// Sets the bits of one predicate register.
    pub fn set_predicate(&mut self, register: usize, bits: impl IntoIterator<Item = usize>) {
        let first = self.start(register) / 8;
        for bit in bits {
            self.p[first + bit / 8] |= 1 << (bit % 8);
        }
    }

    /// Sets all bits of one predicate register.
    pub fn set_all_active(&mut self, register: usize) {
        self.set_predicate(register, 0..self.vector_bytes());
    }

    /// The bytes of a vector register.
    pub fn z(&self, register: usize) -> Vec<u8> {
        self.z[self.start(register)..][..self.vector_bytes()].to_vec()
    }

    /// The bytes of a ZA vector.
    pub fn za(&self, vector: usize) -> Vec<u8> {
        self.za[self.start(vector)..][..self.vector_bytes()].to_vec()
    }

    pub fn set_z(&mut self, register: usize, bytes: &[u8]) {
        let (first, length) = (self.start(register), self.vector_bytes());
        self.z[first..][..length].copy_from_slice(bytes);
    }

    pub fn set_za(&mut self, vector: usize, bytes: &[u8]) {
        let (first, length) = (self.start(vector), self.vector_bytes());
        self.za[first..][..length].copy_from_slice(bytes);
    }

    /// Sets the bytes of a ZA vector from `first` on.
    pub fn set_za_part(&mut self, vector: usize, first: usize, bytes: &[u8]) {
        let start = self.start(vector) + first;
        self.za[start..start + bytes.len()].copy_from_slice(bytes);
    }

    /// Executes a word.
    pub fn run(&mut self, word: u32) -> Answer {
        self.run_with(Mistake::None, word)
    }

    /// Executes a word with a mistake.
    pub fn run_with(&mut self, mistake: Mistake, word: u32) -> Answer {
        let settings = self.settings;
        execute_with(mistake, &settings, word, self.lend())
    }

    /// Runs a listing.
    pub fn run_listing(&mut self, listing: &[u8], allowance: u64) -> Ran {
        let settings = self.settings;
        listing::run(&settings, listing, allowance, self.lend())
    }

    /// Runs a listing with a mistake.
    pub fn run_listing_with(
        &mut self,
        mistake: ListingMistake,
        listing: &[u8],
        allowance: u64,
    ) -> Ran {
        let settings = self.settings;
        listing::run_with(mistake, &settings, listing, allowance, self.lend())
    }

    /// The buffers, for one call.
    fn lend(&mut self) -> Buffers<'_> {
        Buffers {
            x: &self.x,
            z: &mut self.z,
            p: &self.p,
            za: &mut self.za,
            memory: &mut self.memory,
        }
    }

    /// Executes a word that is answered done and must leave `wanted`.
    pub fn expect_done(mut self, word: u32, wanted: &Machine) {
        assert_eq!(self.run(word), DONE, "{word:08X}");
        assert!(self == *wanted, "{word:08X} left another state");
    }

    /// Executes a word that is refused with any number but 7.
    pub fn expect_refused(&self, word: u32, number: u32) {
        self.expect_answer(Mistake::None, word, plain(number));
    }

    /// Executes a word that is refused with 7 for that element.
    pub fn expect_fault(&self, word: u32, address: u64, element: u64) {
        self.expect_answer(Mistake::None, word, (7, address, element));
    }

    /// Executes a word, with a mistake or none, that gets this answer and must
    /// leave everything as it was.
    pub fn expect_answer(&self, mistake: Mistake, word: u32, answer: Answer) {
        let mut after = self.clone();
        let found = after.run_with(mistake, word);
        assert_eq!(found, answer, "{mistake:?}, {word:08X}");
        assert!(
            after == *self,
            "{mistake:?}, {word:08X} was refused and wrote"
        );
    }
}
