//! Words and operations.

use crate::answer::Refusal;
use crate::fields::Fields;
use crate::numbers;
use crate::operation::Operation;

/// The numbers of a word at a feature level. A level above 3 is [`Refusal::BadSettings`], a word that is no
/// instruction of the level [`Refusal::Undecodable`].
pub fn decode_fields(word: u32, level: u64) -> Result<Fields, Refusal> {
    let mut eleven = [0; 11];
    Refusal::check(numbers::decode(word, level, &mut eleven), 0, 0)?;
    Ok(Fields::from(eleven))
}

/// The word that has these numbers, or [`Refusal::OutOfRange`].
pub fn encode_fields(fields: Fields) -> Result<u32, Refusal> {
    let mut word = 0;
    Refusal::check(numbers::encode(&fields.into(), &mut word), 0, 0)?;
    Ok(word)
}

/// The operation of a word at a feature level, refused as by [`decode_fields`].
///
/// ```
/// use sme_move::{decode, Direction, ElementSize, Operation, Refusal};
///
/// assert_eq!(
///     decode(0xC080ACA9, 1),
///     Ok(Operation::MovaToTile {
///         size: ElementSize::Bits32,
///         direction: Direction::Vertical,
///         tile: 2,
///         offset: 1,
///         index: 13,
///         predicate: 3,
///         vector: 5,
///     })
/// );
/// assert_eq!(decode(0xC080ACA9, 0), Err(Refusal::Undecodable));
/// ```
pub fn decode(word: u32, level: u64) -> Result<Operation, Refusal> {
    let fields = decode_fields(word, level)?;
    Ok(fields
        .operation()
        .expect("decoded numbers name an operation"))
}

/// The word of an operation, or [`Refusal::OutOfRange`].
///
/// ```
/// use sme_move::{encode, Operation, Refusal, RegisterCount};
///
/// let group = |first| Operation::MovaFromArray { registers: RegisterCount::Four, offset: 7, index: 10, first };
/// assert_eq!(encode(group(28)), Ok(0xC0064CFC));
/// assert_eq!(encode(group(2)), Err(Refusal::OutOfRange));
/// ```
pub fn encode(operation: Operation) -> Result<u32, Refusal> {
    encode_fields(operation.into())
}
