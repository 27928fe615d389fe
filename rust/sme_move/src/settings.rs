//! Settings of the simulated machine, and the lengths that they fix.

use crate::answer::Refusal;
use crate::numbers;

/// The settings of one machine. Any numbers can be in the fields, so execution checks them again.
#[derive(Clone, Copy, Debug, PartialEq, Eq, Hash)]
#[non_exhaustive]
pub struct Settings {
    /// The streaming vector length in bytes.
    pub vector_bytes: u64,
    /// The feature level: 0 none, 1 SME, 2 SME2, 3 SME2.1.
    pub level: u64,
    /// Whether streaming mode is on.
    pub streaming: bool,
    /// Whether ZA is on.
    pub za: bool,
    /// The address of memory's first byte.
    pub memory_address: u64,
    /// Whether a misaligned stack pointer as the base of a load or store is refused
    /// ([`Refusal::StackMisaligned`]). With the check off it is a base like any other.
    pub stack_check: bool,
    /// The largest vector length in bytes, for which the buffers are laid out: vectors start this far apart, predicate
    /// registers an eighth of it. It is not below the vector length.
    /// The [crate's page](crate#short-vectors-in-long-buffers) tells what becomes of the bytes between.
    pub largest_vector_bytes: u64,
}

/// The lengths that buffers have for a largest vector length: X in numbers, the others in bytes.
#[derive(Clone, Copy, Debug, PartialEq, Eq, Hash)]
pub struct Lengths {
    pub x: usize,
    pub z: usize,
    pub p: usize,
    pub za: usize,
}

impl Settings {
    pub const MIN_VECTOR_BYTES: u64 = 16;

    pub const MAX_VECTOR_BYTES: u64 = 256;

    pub const MAX_LEVEL: u64 = 3;

    /// Settings of this vector length and level, with streaming and ZA off, memory at address 0, the stack check on and
    /// buffers for this length.
    ///
    /// ```
    /// use sme_move::{Refusal, Settings};
    ///
    /// assert_eq!(Settings::new(64, 3).map(|s| s.vector_bytes), Ok(64));
    /// assert_eq!(Settings::new(48, 3), Err(Refusal::BadSettings));
    /// ```
    pub fn new(vector_bytes: u64, level: u64) -> Result<Settings, Refusal> {
        Settings::within(vector_bytes, vector_bytes, level)
    }

    /// The same for a machine that runs at this vector length in buffers for a larger one, or for this one.
    ///
    /// ```
    /// use sme_move::{Refusal, Settings};
    ///
    /// let settings = Settings::within(16, 64, 3)?;
    /// assert_eq!((settings.vector_bytes, settings.largest_vector_bytes), (16, 64));
    /// assert_eq!(Settings::within(64, 64, 3), Settings::new(64, 3));
    /// // The buffers are too short for these vectors.
    /// assert_eq!(Settings::within(64, 16, 3), Err(Refusal::BadSettings));
    /// # Ok::<(), Refusal>(())
    /// ```
    pub fn within(
        vector_bytes: u64,
        largest_vector_bytes: u64,
        level: u64,
    ) -> Result<Settings, Refusal> {
        let settings = Settings {
            largest_vector_bytes,
            ..Settings::unchecked(vector_bytes, level)
        };
        settings.check().map(|()| settings)
    }

    /// New settings without a check: any numbers can be in the fields, and execution checks them again.
    pub(crate) const fn unchecked(vector_bytes: u64, level: u64) -> Settings {
        Settings {
            vector_bytes,
            level,
            streaming: false,
            za: false,
            memory_address: 0,
            stack_check: true,
            largest_vector_bytes: vector_bytes,
        }
    }

    /// The settings that a refused [`Settings::new`] leaves a machine with (document 01): the shortest vectors, buffers
    /// for these and level 0.
    ///
    /// ```
    /// use sme_move::Settings;
    ///
    /// let settings = Settings::within(48, 64, 3).unwrap_or(Settings::REFUSED);
    /// assert_eq!((settings.vector_bytes, settings.largest_vector_bytes, settings.level), (16, 16, 0));
    /// ```
    pub const REFUSED: Settings = Settings::unchecked(Settings::MIN_VECTOR_BYTES, 0);

    /// Whether the vector lengths and the level are allowed.
    pub fn check(self) -> Result<(), Refusal> {
        Refusal::check(numbers::check(self), 0, 0)
    }

    #[must_use]
    pub fn with_streaming(mut self, on: bool) -> Settings {
        self.streaming = on;
        self
    }

    #[must_use]
    pub fn with_za(mut self, on: bool) -> Settings {
        self.za = on;
        self
    }

    #[must_use]
    pub fn with_memory_address(mut self, address: u64) -> Settings {
        self.memory_address = address;
        self
    }

    #[must_use]
    pub fn with_stack_check(mut self, on: bool) -> Settings {
        self.stack_check = on;
        self
    }

    /// The lengths that buffers must have. They go by the largest vector length; only the two lengths are checked.
    ///
    /// ```
    /// use sme_move::Settings;
    ///
    /// let lengths = Settings::new(32, 1)?.lengths()?;
    /// assert_eq!((lengths.x, lengths.z, lengths.p, lengths.za), (32, 1024, 64, 1024));
    /// assert_eq!(Settings::within(16, 32, 1)?.lengths()?, lengths);
    /// # Ok::<(), sme_move::Refusal>(())
    /// ```
    pub fn lengths(self) -> Result<Lengths, Refusal> {
        let mut lengths = [0; 4];
        Refusal::check(numbers::measure(self, &mut lengths), 0, 0)?;
        let [x, z, p, za] = lengths.map(|length| length as usize);
        Ok(Lengths { x, z, p, za })
    }
}
