//! A machine's registers and array.

use crate::answer::Refusal;
use crate::execute::{execute, Buffers};
use crate::layout::{Layout, PREDICATES, VECTORS};
use crate::listing::{run_listing, Stopped};
use crate::operation::ElementSize;
use crate::settings::Settings;

/// A machine's registers and array, of the lengths that its settings fix, for hosts that keep no buffers of
/// their own. Memory stays the host's; a [`Machine`](crate::Machine) has it too.
///
/// Vectors and predicate registers are here as long as the buffers are laid out for: where the vector length is shorter
/// than the largest one, the bytes beyond it are among them. A [`Machine`](crate::Machine) knows the settings, and its
/// functions of the same names give only the bytes that count.
///
/// ```
/// use sme_move::{Settings, State};
///
/// let settings = Settings::new(16, 3)?.with_streaming(true).with_za(true);
/// let mut state = State::new(settings)?;
/// state.p.fill(0xFF);
/// state.vector_mut(0).fill(7);
/// // Move vector register 0 to row 0 of the tile of 1-byte elements.
/// state.execute(settings, 0xC0000000, &mut [])?;
/// assert_eq!(state.array_vector(0), state.vector(0));
/// # Ok::<(), sme_move::Refusal>(())
/// ```
#[derive(Clone, Debug, PartialEq, Eq)]
pub struct State {
    /// The 31 general-purpose registers and, as number 31, the stack pointer.
    pub x: Vec<u64>,
    /// The 32 vector registers, one after another.
    pub z: Vec<u8>,
    /// The 16 predicate registers, one after another, a bit for each byte of a vector.
    pub p: Vec<u8>,
    /// The array, vector 0 first.
    pub za: Vec<u8>,
}

impl State {
    /// All zero.
    pub fn new(settings: Settings) -> Result<State, Refusal> {
        let lengths = settings.lengths()?;
        Ok(State {
            x: vec![0; lengths.x],
            z: vec![0; lengths.z],
            p: vec![0; lengths.p],
            za: vec![0; lengths.za],
        })
    }

    /// Executes one instruction word, as [`execute`] does.
    ///
    /// ```
    /// use sme_move::{encode, Direction, ElementSize, Operation, Settings, State};
    ///
    /// let settings = Settings::new(16, 1)?.with_streaming(true).with_za(true);
    /// let mut state = State::new(settings)?;
    /// state.za.fill(7);
    /// state.predicate_mut(2).fill(0b0000_0001); // elements 0 and 2 of four
    /// let row = Operation::MovaFromTile {
    ///     size: ElementSize::Bits32,
    ///     direction: Direction::Horizontal,
    ///     tile: 1,
    ///     offset: 3,
    ///     index: 12,
    ///     predicate: 2,
    ///     vector: 5,
    /// };
    /// state.execute(settings, encode(row)?, &mut [])?;
    /// assert_eq!(state.vector(5), [7, 7, 7, 7, 0, 0, 0, 0, 7, 7, 7, 7, 0, 0, 0, 0]);
    /// assert_eq!(state.za, [7; 256]);
    /// # Ok::<(), sme_move::Refusal>(())
    /// ```
    pub fn execute(
        &mut self,
        settings: Settings,
        word: u32,
        memory: &mut [u8],
    ) -> Result<(), Refusal> {
        execute(settings, word, self.lent(memory))
    }

    /// Runs a listing, at most as many of its words as the allowance says, as [`run_listing`] does.
    ///
    /// ```
    /// use sme_move::{Refusal, Settings, State, Stopped};
    ///
    /// let settings = Settings::new(16, 1)?.with_streaming(true).with_za(true);
    /// let mut state = State::new(settings)?;
    /// state.p.fill(0xFF);
    /// state.vector_mut(1).fill(7);
    /// let mut memory = [0; 16];
    /// // Move vector register 1 to row 0 of the tile of 1-byte elements, store that at address 0, and then at 1.
    /// state.x[1] = 1;
    /// let listing = [0xC0000020, 0xE03F0000, 0xE03F0020].map(u32::to_le_bytes).concat();
    /// assert_eq!(state.run_listing(settings, &listing, 2, &mut memory), Ok(2));
    /// assert_eq!(memory, [7; 16]);
    /// let refusal = Refusal::OutsideMemory { address: 16, element: 15 };
    /// let stopped = Stopped { done: 2, refusal };
    /// assert_eq!(state.run_listing(settings, &listing, 3, &mut memory), Err(stopped));
    /// # Ok::<(), Refusal>(())
    /// ```
    pub fn run_listing(
        &mut self,
        settings: Settings,
        listing: &[u8],
        allowance: u64,
        memory: &mut [u8],
    ) -> Result<usize, Stopped> {
        run_listing(settings, listing, allowance, self.lent(memory))
    }

    /// All buffers, for one call.
    fn lent<'a>(&'a mut self, memory: &'a mut [u8]) -> Buffers<'a> {
        let State { x, z, p, za } = self;
        Buffers {
            x,
            z,
            p,
            za,
            memory,
        }
    }

    /// Vector register `number`.
    ///
    /// ```
    /// use sme_move::{Settings, State};
    ///
    /// let mut state = State::new(Settings::new(16, 3)?)?;
    /// state.vector_mut(31)[0] = 7;
    /// assert_eq!(state.vector(31)[..2], [7, 0]);
    /// # Ok::<(), sme_move::Refusal>(())
    /// ```
    ///
    /// # Panics
    /// If there are no 32 registers of equal length, or `number` is not below 32.
    pub fn vector(&self, number: usize) -> &[u8] {
        &self.z[self.layout().vector(&self.z, number)]
    }

    /// Vector register `number`, to be written.
    ///
    /// # Panics
    /// If there are no 32 registers of equal length, or `number` is not below 32.
    pub fn vector_mut(&mut self, number: usize) -> &mut [u8] {
        let place = self.layout().vector(&self.z, number);
        &mut self.z[place]
    }

    /// Predicate register `number`: bit i of it is bit i mod 8 of byte i / 8. The
    /// [crate's page](crate#when-an-element-is-active) tells which bit an element goes by.
    ///
    /// ```
    /// use sme_move::{Settings, State};
    ///
    /// let mut state = State::new(Settings::new(16, 3)?)?;
    /// state.predicate_mut(3)[1] = 0b0001_0000; // bit 12
    /// assert_eq!(state.predicate(3), [0, 0b0001_0000]);
    /// # Ok::<(), sme_move::Refusal>(())
    /// ```
    ///
    /// # Panics
    /// If there are no 16 registers of equal length, or `number` is not below 16.
    pub fn predicate(&self, number: usize) -> &[u8] {
        &self.p[self.layout_of_predicates().predicate(&self.p, number)]
    }

    /// Predicate register `number`, to be written.
    ///
    /// # Panics
    /// If there are no 16 registers of equal length, or `number` is not below 16.
    pub fn predicate_mut(&mut self, number: usize) -> &mut [u8] {
        let place = self.layout_of_predicates().predicate(&self.p, number);
        &mut self.p[place]
    }

    /// Vector `number` of the array.
    ///
    /// ```
    /// use sme_move::{Settings, State};
    ///
    /// let mut state = State::new(Settings::new(16, 3)?)?;
    /// state.array_vector_mut(15)[0] = 7;
    /// assert_eq!(state.array_vector(15)[..2], [7, 0]);
    /// assert_eq!(state.za[15 * 16], 7);
    /// # Ok::<(), sme_move::Refusal>(())
    /// ```
    ///
    /// # Panics
    /// If the array is not as many vectors as a vector register has bytes, of as many bytes each, or `number` is not
    /// below that.
    pub fn array_vector(&self, number: usize) -> &[u8] {
        &self.za[self.layout().array_vector(&self.za, number)]
    }

    /// Vector `number` of the array, to be written.
    ///
    /// # Panics
    /// As [`State::array_vector`].
    pub fn array_vector_mut(&mut self, number: usize) -> &mut [u8] {
        let place = self.layout().array_vector(&self.za, number);
        &mut self.za[place]
    }

    /// Horizontal slice `slice` of a tile: a whole vector of the array, and
    /// [the crate's page](crate#where-a-tiles-slices-lie-in-the-array) tells which.
    ///
    /// ```
    /// use sme_move::{ElementSize, Settings, State};
    ///
    /// let mut state = State::new(Settings::new(16, 3)?)?;
    /// state.array_vector_mut(3 * 4 + 1).fill(7);
    /// assert_eq!(state.horizontal_slice(ElementSize::Bits32, 1, 3), [7; 16]);
    /// # Ok::<(), sme_move::Refusal>(())
    /// ```
    ///
    /// # Panics
    /// As [`State::array_vector`], or if there is no tile of this number or no such slice of it.
    pub fn horizontal_slice(&self, size: ElementSize, tile: usize, slice: usize) -> &[u8] {
        let layout = self.layout();
        &self.za[layout.horizontal_slice(&self.za, size, tile, slice)]
    }

    /// Vertical slice `slice` of a tile, its elements one after another. They lie in as many vectors of the array, so
    /// this is a copy; [the crate's page](crate#where-a-tiles-slices-lie-in-the-array) tells where.
    ///
    /// ```
    /// use sme_move::{ElementSize, Settings, State};
    ///
    /// let mut state = State::new(Settings::new(16, 3)?)?;
    /// for (row, byte) in [(0, 10), (1, 11), (2, 12), (3, 13)] {
    ///     state.array_vector_mut(row * 4 + 1)[8..12].fill(byte);
    /// }
    /// let column = state.vertical_slice(ElementSize::Bits32, 1, 2);
    /// assert_eq!(column, [10, 10, 10, 10, 11, 11, 11, 11, 12, 12, 12, 12, 13, 13, 13, 13]);
    /// # Ok::<(), sme_move::Refusal>(())
    /// ```
    ///
    /// # Panics
    /// As [`State::horizontal_slice`].
    pub fn vertical_slice(&self, size: ElementSize, tile: usize, slice: usize) -> Vec<u8> {
        self.layout().vertical_slice(&self.za, size, tile, slice)
    }

    /// As the vector registers fill their buffer.
    fn layout(&self) -> Layout {
        Layout::close(self.z.len() / VECTORS)
    }

    /// As the predicate registers fill theirs.
    fn layout_of_predicates(&self) -> Layout {
        Layout::close(self.p.len() / PREDICATES * 8)
    }
}
