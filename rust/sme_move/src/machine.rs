//! A machine with all that it needs.

use crate::answer::Refusal;
use crate::layout::Layout;
use crate::listing::{listing_of, Stopped};
use crate::operation::{ElementSize, Operation};
use crate::settings::Settings;
use crate::state::State;
use crate::words::encode;

/// A word that is no instruction at any level: A64 has it as permanently undefined.
const NO_INSTRUCTION: u32 = 0;

/// A machine: settings, registers, array and memory in one. All parts are the host's to read and change at any time.
/// Whatever is in them every word has an answer, and a refusal changes none of them.
///
/// ```
/// use sme_move::{Direction, ElementSize, Machine, Operation, Settings};
///
/// let settings = Settings::new(16, 3)?.with_streaming(true).with_za(true).with_memory_address(0x1000);
/// let mut machine = Machine::new(settings, b"sixteen letters!".to_vec())?;
/// machine.state.predicate_mut(0).fill(0xFF); // every element is active
/// machine.state.x[1] = 0x1000; // the base
/// machine.state.x[12] = 5; // the slice
/// machine.execute_operation(Operation::Ld1 {
///     size: ElementSize::Bits8,
///     direction: Direction::Horizontal,
///     tile: 0,
///     offset: 0,
///     index: 12,
///     predicate: 0,
///     base: 1,
///     offset_register: 31, // reads as zero
/// })?;
/// assert_eq!(machine.state.horizontal_slice(ElementSize::Bits8, 0, 5), machine.memory);
/// # Ok::<(), sme_move::Refusal>(())
/// ```
#[derive(Clone, Debug, PartialEq, Eq)]
#[non_exhaustive]
pub struct Machine {
    /// With the switches, and the address of memory's first byte.
    pub settings: Settings,
    /// Registers and array.
    pub state: State,
    /// Memory, from the settings' memory address on. Only a store writes it.
    pub memory: Vec<u8>,
}

impl Machine {
    /// A machine with these settings, switches included, and this memory; registers and array are zero. Settings that
    /// are not allowed are [`Refusal::BadSettings`], and memory that ends above 2^64 is [`Refusal::BadLengths`].
    ///
    /// ```
    /// use sme_move::{Machine, Refusal, Settings};
    ///
    /// let settings = Settings::new(64, 3)?.with_memory_address(u64::MAX);
    /// assert_eq!(Machine::new(settings, vec![7])?.memory, [7]);
    /// assert_eq!(Machine::new(settings, vec![7, 7]), Err(Refusal::BadLengths));
    /// # Ok::<(), Refusal>(())
    /// ```
    pub fn new(settings: Settings, memory: Vec<u8>) -> Result<Machine, Refusal> {
        let state = State::new(settings)?;
        let mut machine = Machine {
            settings,
            state,
            memory,
        };
        // Settings and lengths are checked before the word, so the unit itself says whether they are right.
        match machine.execute(NO_INSTRUCTION) {
            Err(Refusal::Undecodable) => Ok(machine),
            Err(refusal) => Err(refusal),
            Ok(()) => unreachable!("the word is no instruction"),
        }
    }

    /// Executes one instruction word.
    ///
    /// ```
    /// use sme_move::{Machine, Refusal, Settings};
    ///
    /// let mut machine = Machine::new(Settings::new(16, 1)?.with_za(true), Vec::new())?;
    /// assert_eq!(machine.execute(0xC0000000), Err(Refusal::StreamingOff));
    /// machine.settings.streaming = true;
    /// assert_eq!(machine.execute(0xC0000000), Ok(()));
    /// # Ok::<(), Refusal>(())
    /// ```
    pub fn execute(&mut self, word: u32) -> Result<(), Refusal> {
        self.state.execute(self.settings, word, &mut self.memory)
    }

    /// Encodes an operation and executes its word. An operation that no word has is [`Refusal::OutOfRange`].
    ///
    /// ```
    /// use sme_move::{Machine, Operation, Refusal, RegisterCount, Settings};
    ///
    /// let settings = Settings::new(16, 3)?.with_streaming(true).with_za(true);
    /// let mut machine = Machine::new(settings, Vec::new())?;
    /// machine.state.array_vector_mut(12).fill(7);
    /// let group = |first| Operation::MovaFromArray { registers: RegisterCount::Four, offset: 0, index: 8, first };
    /// machine.execute_operation(group(20))?;
    /// assert_eq!(machine.state.vector(23), [7; 16]);
    /// assert_eq!(machine.execute_operation(group(2)), Err(Refusal::OutOfRange));
    /// # Ok::<(), Refusal>(())
    /// ```
    pub fn execute_operation(&mut self, operation: Operation) -> Result<(), Refusal> {
        self.execute(encode(operation)?)
    }

    /// Runs a listing, at most as many of its words as the allowance says, as [`run_listing`](crate::run_listing) does.
    ///
    /// ```
    /// use sme_move::{Machine, Refusal, Settings};
    ///
    /// let settings = Settings::new(16, 3)?.with_streaming(true).with_za(true);
    /// let mut machine = Machine::new(settings, Vec::new())?;
    /// machine.state.p.fill(0xFF);
    /// machine.state.vector_mut(0).fill(7);
    /// // Move vector register 0 to rows 0 and 1 of the tile of 1-byte elements, with a word between that is none.
    /// let listing = [0xC0000000, 0, 0xC0000001].map(u32::to_le_bytes).concat();
    /// let (mut rest, mut refused) = (&listing[..], 0);
    /// while let Err(stopped) = machine.run_listing(rest, u64::MAX) {
    ///     assert_eq!(stopped.refusal, Refusal::Undecodable);
    ///     refused += 1;
    ///     rest = &rest[4 * (stopped.done + 1)..]; // go on behind the refused word
    /// }
    /// assert_eq!(refused, 1);
    /// assert_eq!(machine.state.za[..33], [[7; 32].as_slice(), &[0]].concat());
    /// # Ok::<(), Refusal>(())
    /// ```
    pub fn run_listing(&mut self, listing: &[u8], allowance: u64) -> Result<usize, Stopped> {
        let memory = &mut self.memory;
        self.state
            .run_listing(self.settings, listing, allowance, memory)
    }

    /// Executes words one after another, up to the first that is refused: how many there were, all done, or how many
    /// were done before the refused one. What the done ones did stays.
    ///
    /// All words are taken from the iterator before the first is run, and then run in one call, so the iterator has to
    /// end. Settings and lengths are checked also where there are no words. A host that has its words as bytes need not
    /// have them gathered: [`Machine::run_listing`].
    ///
    /// ```
    /// use sme_move::{Machine, Refusal, Settings, Stopped};
    ///
    /// let settings = Settings::new(16, 3)?.with_streaming(true).with_za(true);
    /// let mut machine = Machine::new(settings, Vec::new())?;
    /// assert_eq!(machine.run([0xC0000000, 0xC0020200]), Ok(2));
    /// let stopped = Stopped { done: 1, refusal: Refusal::Undecodable };
    /// assert_eq!(machine.run([0xC0000000, 0xC0000010, 0xC0020200]), Err(stopped));
    /// # Ok::<(), Refusal>(())
    /// ```
    pub fn run(&mut self, words: impl IntoIterator<Item = u32>) -> Result<usize, Stopped> {
        self.run_listing(&listing_of(words), u64::MAX)
    }

    /// The bytes of vector register `number` that count: as many as the vector length says, from where the largest one
    /// has it start.
    ///
    /// ```
    /// use sme_move::{Direction, ElementSize, Machine, Operation, Settings};
    ///
    /// // Vectors of 16 bytes in buffers for vectors of 64.
    /// let settings = Settings::within(16, 64, 3)?.with_streaming(true).with_za(true);
    /// let mut machine = Machine::new(settings, Vec::new())?;
    /// machine.predicate_mut(0).fill(0xFF);
    /// machine.vector_mut(1).copy_from_slice(b"sixteen letters!");
    /// let (size, direction, tile) = (ElementSize::Bits32, Direction::Horizontal, 2);
    /// let (offset, index, predicate, vector) = (3, 12, 0, 1);
    /// machine.execute_operation(Operation::MovaToTile { size, direction, tile, offset, index, predicate, vector })?;
    /// assert_eq!(machine.horizontal_slice(size, tile.into(), 3), machine.vector(1));
    /// assert_eq!(machine.vertical_slice(size, tile.into(), 1)[12..], *b"een ");
    /// // The slice is vector 3 * 4 + 2 of the array, of which the unit leaves all other bytes alone.
    /// assert_eq!(machine.state.za[14 * 64..][..17], *b"sixteen letters!\0");
    /// # Ok::<(), sme_move::Refusal>(())
    /// ```
    ///
    /// # Panics
    /// If the settings' vector lengths are not allowed, the state's buffers have not the lengths that these fix, or
    /// `number` is not below 32.
    pub fn vector(&self, number: usize) -> &[u8] {
        &self.state.z[self.layout().vector(&self.state.z, number)]
    }

    /// These bytes of vector register `number`, to be written.
    ///
    /// # Panics
    /// As [`Machine::vector`].
    pub fn vector_mut(&mut self, number: usize) -> &mut [u8] {
        let place = self.layout().vector(&self.state.z, number);
        &mut self.state.z[place]
    }

    /// The bytes of predicate register `number` that count, an eighth of a vector's.
    ///
    /// # Panics
    /// As [`Machine::vector`], but `number` is to be below 16.
    pub fn predicate(&self, number: usize) -> &[u8] {
        &self.state.p[self.layout().predicate(&self.state.p, number)]
    }

    /// These bytes of predicate register `number`, to be written.
    ///
    /// # Panics
    /// As [`Machine::predicate`].
    pub fn predicate_mut(&mut self, number: usize) -> &mut [u8] {
        let place = self.layout().predicate(&self.state.p, number);
        &mut self.state.p[place]
    }

    /// The bytes of vector `number` of the array that count. So many vectors of it do as a vector has bytes.
    ///
    /// # Panics
    /// As [`Machine::vector`], but `number` is to be below the vector length.
    pub fn array_vector(&self, number: usize) -> &[u8] {
        &self.state.za[self.layout().array_vector(&self.state.za, number)]
    }

    /// These bytes of vector `number` of the array, to be written.
    ///
    /// # Panics
    /// As [`Machine::array_vector`].
    pub fn array_vector_mut(&mut self, number: usize) -> &mut [u8] {
        let place = self.layout().array_vector(&self.state.za, number);
        &mut self.state.za[place]
    }

    /// Horizontal slice `slice` of a tile. The [crate's page](crate#where-a-tiles-slices-lie-in-the-array) tells which
    /// vector of the array it is.
    ///
    /// # Panics
    /// As [`Machine::array_vector`], or if there is no tile of this number or no such slice of it.
    pub fn horizontal_slice(&self, size: ElementSize, tile: usize, slice: usize) -> &[u8] {
        let za = &self.state.za;
        &za[self.layout().horizontal_slice(za, size, tile, slice)]
    }

    /// Vertical slice `slice` of a tile, its elements one after another: a copy, as they lie in as many vectors.
    ///
    /// # Panics
    /// As [`Machine::horizontal_slice`].
    pub fn vertical_slice(&self, size: ElementSize, tile: usize, slice: usize) -> Vec<u8> {
        let layout = self.layout();
        layout.vertical_slice(&self.state.za, size, tile, slice)
    }

    /// As the settings say, if they are allowed: that is for the unit to say, which gives the lengths by them.
    fn layout(&self) -> Layout {
        let lengths = self.settings.lengths();
        lengths.expect("the vector lengths are allowed");
        Layout {
            vector_bytes: self.settings.vector_bytes as usize,
            largest_vector_bytes: self.settings.largest_vector_bytes as usize,
        }
    }
}
