//! The settings of a call (document 01, section 2, as requests 4 and 12
//! amend it).

/// The vector lengths that there are, in bytes.
pub const VECTOR_LENGTHS: [u64; 5] = [16, 32, 64, 128, 256];

/// What the host says beside the buffers. Any number may stand in here; it
/// is execution that refuses.
#[derive(Clone, Copy, Debug, PartialEq, Eq)]
pub struct Settings {
    /// Streaming vector length in bytes.
    pub vector_bytes: u64,
    /// Feature level: 0 none, 1 SME, 2 SME2, 3 SME2.1.
    pub level: u64,
    pub streaming: bool,
    pub za_on: bool,
    /// The address of memory's first byte.
    pub memory_address: u64,
    /// Whether a misaligned stack pointer is refused as the base of a load or
    /// store. With the check off it is a base like any other.
    pub stack_check: bool,
    /// The vector length in bytes that the buffers are laid out for: how far
    /// apart vectors start.
    pub largest_vector_bytes: u64,
}
