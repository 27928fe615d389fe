//! The move unit of a simulator for Arm's Scalable Matrix Extension (SME): safe functions over the
//! proved archive `libsme_move.a`, which `bash archive.sh` makes.
//!
//! There are moves between vector registers and tiles or whole vectors of the array, and loads and stores between
//! memory and tiles. Every word, setting and buffer length has an answer; a refusal changes nothing.
//!
//! A [`Machine`] holds all that words work on: settings, registers, array and memory.
//!
//! ```
//! use sme_move::{Machine, Settings};
//!
//! let settings = Settings::new(16, 3)?.with_streaming(true).with_za(true);
//! let mut machine = Machine::new(settings, b"sixteen letters!".to_vec())?;
//! machine.state.p.fill(0xFF);
//! machine.state.vector_mut(0).fill(7);
//! machine.state.x[12] = 5;
//! // Move vector register 0 to row 5 of the tile of 1-byte elements.
//! machine.execute(0xC0000000)?;
//! assert_eq!(machine.state.array_vector(5), [7; 16]);
//! // Load the row after it from memory, at the address that register 0 holds.
//! machine.execute(0xE01F0001)?;
//! assert_eq!(machine.state.array_vector(6), machine.memory);
//! # Ok::<(), sme_move::Refusal>(())
//! ```
//!
//! A host that keeps memory elsewhere has a [`State`] of registers and array; one that owns every buffer lends them
//! for one call of [`execute`]: the 32 numbers of X, the vector registers Z, the predicate registers P, the array,
//! which Arm calls ZA, and memory.
//!
//! Many words run faster in one call: a listing is bytes, four to a word, the lowest first. The call runs the words up
//! to the first that is refused, and gives how many were done, whose effect stays; to go on behind a refused word, skip
//! 4 * (done + 1) bytes. [`Machine::run_listing`], [`State::run_listing`] and [`run_listing`] take a listing,
//! [`Machine::run`] takes words.
//!
//! ```
//! use sme_move::{Machine, Refusal, Settings};
//!
//! let settings = Settings::new(16, 3)?.with_streaming(true).with_za(true);
//! let mut machine = Machine::new(settings, Vec::new())?;
//! // Moves to rows 0 and 1 of the tile of 1-byte elements, between them a word that is no instruction.
//! let listing = [0xC0000000, 0, 0xC0000001].map(u32::to_le_bytes).concat();
//! let stopped = machine.run_listing(&listing, u64::MAX).expect_err("the second word is refused");
//! assert_eq!((stopped.done, stopped.refusal), (1, Refusal::Undecodable));
//! assert_eq!(machine.run_listing(&listing[4 * (stopped.done + 1)..], u64::MAX), Ok(1));
//! # Ok::<(), sme_move::Refusal>(())
//! ```
//!
//! In what follows B is the vector length in bytes, and an element has m bytes: 1, 2, 4, 8 or 16
//! ([`ElementSize::bytes`]). There are m tiles of that size, numbered from 0, each with n = B / m slices of n elements
//! in either [`Direction`]. Element e of a vector is its bytes e * m to e * m + m - 1.
//!
//! # When an element is active
//!
//! Element e is active exactly if bit e * m of the governing predicate is 1, which is the bit of its first byte; the
//! other m - 1 bits are not looked at. Bit i of a predicate register is bit i mod 8 of its byte i / 8. So bytes of 0xFF
//! make every element of every size active.
//!
//! ```
//! use sme_move::{ElementSize, Settings, State};
//!
//! let mut state = State::new(Settings::new(16, 3)?)?;
//! state.predicate_mut(0).copy_from_slice(&[0b0001_0000, 0b0000_1110]);
//! let active = |size: ElementSize, e: usize| {
//!     let bit = e * usize::from(size.bytes());
//!     state.predicate(0)[bit / 8] >> (bit % 8) & 1 == 1
//! };
//! // Of four 4-byte elements only number 1: bits 0, 4, 8 and 12 are looked at.
//! assert_eq!([0, 1, 2, 3].map(|e| active(ElementSize::Bits32, e)), [false, true, false, false]);
//! # Ok::<(), sme_move::Refusal>(())
//! ```
//!
//! # Which slice is meant
//!
//! An operation on a tile names an index register and an offset. Its slice is number (W + offset) mod n, W being the
//! low 32 bits of the index register; the sum is of whole numbers and does not wrap at 2^32. A move of r = 2 or 4
//! vectors of the array begins at vector (W + offset) mod (B / r), and each of the others is B / r further.
//!
//! # Where a tile's slices lie in the array
//!
//! Horizontal slice s of tile t is vector s * m + t of the array, whole: the vectors of a tile are m apart. Element e
//! of vertical slice s of tile t is bytes s * m to s * m + m - 1 of vector e * m + t. [`Machine::horizontal_slice`] and
//! [`Machine::vertical_slice`] read them.
//!
//! # Short vectors in long buffers
//!
//! A host may keep its buffers for a largest vector length L and run at a shorter one: [`Settings::within`]. Vectors
//! then start L bytes apart in Z and in the array, which has L of them; predicate registers start L / 8 bytes apart.
//! All that is said above goes by B. Of each vector the first B bytes count, of a predicate register the first B / 8,
//! of the array vectors 0 to B - 1; the other bytes never change and never matter. [`Machine::vector`] and its
//! neighbours give what counts, those of [`State`] all that is in the buffers.

mod answer;
mod execute;
mod fields;
mod held;
mod kind;
mod layout;
mod listing;
mod machine;
pub mod numbers;
mod operation;
mod settings;
mod state;
mod words;

pub use answer::Refusal;
pub use execute::{execute, Buffers};
pub use fields::Fields;
pub use held::{HeldTiles, Tile};
pub use kind::Kind;
pub use listing::{run_listing, Stopped};
pub use machine::Machine;
pub use operation::{Direction, ElementSize, Operation, RegisterCount};
pub use settings::{Lengths, Settings};
pub use state::State;
pub use words::{decode, decode_fields, encode, encode_fields};
