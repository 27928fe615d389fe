//! What a script expects of the words before.

use super::members::{exactly, member, member_bytes};
use super::Place;
use crate::digits::{bytes, decimal, hexadecimal, shown};
use crate::tile::{named, Tile};
use crate::wording::{counted, direction_name};
use sme_move::{Direction, Refusal, Settings};

const FORMS: &str = "'expect' is followed by answer, memory, vector, array or tile";
const ANSWER_FORM: &str = "'expect answer' takes a number, and with 7 also an address, \
                           and after it the number of an element";
const TILE_FORM: &str = "'expect tile' takes a tile such as 4:1, horizontal or vertical, \
                         the number of a slice, and its bytes";

/// The refusals that a word of a script can get. Its settings are right, so they are none; nor is the length of its
/// words, which are always whole.
const REFUSALS: [Refusal; 6] = [
    Refusal::BadLengths,
    Refusal::Undecodable,
    Refusal::StreamingOff,
    Refusal::ZaOff,
    Refusal::StackMisaligned,
    SOMEWHERE_OUTSIDE,
];
const SOMEWHERE_OUTSIDE: Refusal = Refusal::OutsideMemory {
    address: 0,
    element: 0,
};

/// No slice has more elements, whatever the vector length.
const MOST_ELEMENTS: usize = 256;

#[derive(Debug, PartialEq)]
pub enum Expectation {
    /// The answer of the word before.
    Answer(Answer),
    Bytes {
        subject: Subject,
        bytes: Vec<u8>,
    },
}

#[derive(Clone, Copy, Debug, PartialEq)]
pub enum Answer {
    Exactly(Result<(), Refusal>),
    /// That an address is not in memory: this one, or whichever, and of whichever element.
    OutsideMemory {
        address: Option<u64>,
    },
}

impl Answer {
    pub fn is(self, found: Result<(), Refusal>) -> bool {
        match (self, found) {
            (Answer::Exactly(answer), _) => answer == found,
            (
                Answer::OutsideMemory { address: expected },
                Err(Refusal::OutsideMemory { address, .. }),
            ) => expected.unwrap_or(address) == address,
            (Answer::OutsideMemory { .. }, _) => false,
        }
    }

    pub fn number(self) -> u32 {
        match self {
            Answer::Exactly(Ok(())) => 0,
            Answer::Exactly(Err(refusal)) => refusal.number(),
            Answer::OutsideMemory { .. } => SOMEWHERE_OUTSIDE.number(),
        }
    }
}

/// Whose bytes are expected.
#[derive(Clone, Copy, Debug, PartialEq)]
pub enum Subject {
    Memory {
        address: u64,
    },
    Vector(usize),
    Array(usize),
    Slice {
        tile: Tile,
        direction: Direction,
        slice: usize,
    },
}

impl Subject {
    pub fn name(self) -> String {
        match self {
            Subject::Memory { address } => format!("memory from address {address:016X}"),
            Subject::Vector(number) => format!("{} {number}", Place::Vector.member()),
            Subject::Array(number) => format!("vector {number} of the array"),
            Subject::Slice {
                tile,
                direction,
                slice,
            } => format!(
                "{} slice {slice} of {}",
                direction_name(direction),
                tile.name()
            ),
        }
    }
}

impl Expectation {
    /// The expectation that stands after `expect`, on a machine with so many bytes of memory.
    pub fn read(
        values: &[&str],
        settings: Settings,
        memory_bytes: usize,
    ) -> Result<Expectation, String> {
        let vector_bytes = settings.vector_bytes as usize;
        match values {
            ["answer", rest @ ..] => answer(rest),
            ["memory", rest @ ..] => memory(rest, settings.memory_address, memory_bytes),
            ["vector", rest @ ..] => {
                let (number, bytes) = member_bytes(Place::Vector, rest, vector_bytes)?;
                let subject = Subject::Vector(number);
                Ok(Expectation::Bytes { subject, bytes })
            }
            ["array", rest @ ..] => {
                let (number, bytes) = member_bytes(Place::Array, rest, vector_bytes)?;
                let subject = Subject::Array(number);
                Ok(Expectation::Bytes { subject, bytes })
            }
            ["tile", rest @ ..] => slice(rest, vector_bytes),
            [other, ..] => Err(format!("{FORMS}, not '{}'", shown(other))),
            [] => Err(FORMS.to_string()),
        }
    }
}

fn answer(values: &[&str]) -> Result<Expectation, String> {
    let [number, carried @ ..] = values else {
        return Err(ANSWER_FORM.to_string());
    };
    let answer = decimal(number).and_then(answered).ok_or_else(|| {
        let number = shown(number);
        format!("'{number}' is no answer that a word of a script gets: 0 or 2 to 7, in decimal")
    })?;
    match answer {
        Answer::OutsideMemory { .. } => outside(carried).map(Expectation::Answer),
        answer if carried.is_empty() => Ok(Expectation::Answer(answer)),
        _ => Err(format!(
            "only answer 7 has an address and an element, and {number} neither"
        )),
    }
}

/// Answer 7 with what it is to carry, as far as that is told.
fn outside(carried: &[&str]) -> Result<Answer, String> {
    match carried {
        [] => Ok(Answer::OutsideMemory { address: None }),
        [address] => Ok(Answer::OutsideMemory {
            address: Some(hexadecimal(address)?),
        }),
        [address, element] => Ok(Answer::Exactly(Err(Refusal::OutsideMemory {
            address: hexadecimal(address)?,
            element: member("slice's element", MOST_ELEMENTS, element)? as u64,
        }))),
        _ => Err(ANSWER_FORM.to_string()),
    }
}

/// The answer of a number, if a word of a script can get it.
fn answered(number: u64) -> Option<Answer> {
    if number == 0 {
        return Some(Answer::Exactly(Ok(())));
    }
    let mut refusals = REFUSALS.into_iter();
    match refusals.find(|refusal| u64::from(refusal.number()) == number)? {
        Refusal::OutsideMemory { .. } => Some(Answer::OutsideMemory { address: None }),
        refusal => Some(Answer::Exactly(Err(refusal))),
    }
}

fn memory(values: &[&str], start: u64, memory_bytes: usize) -> Result<Expectation, String> {
    let [address, tokens @ ..] = values else {
        return Err("'expect memory' takes an address and one or more bytes".to_string());
    };
    let address = hexadecimal(address)?;
    let bytes = bytes(tokens)?;
    if bytes.is_empty() {
        return Err("'expect memory' takes one or more bytes after the address".to_string());
    }
    let room = address.checked_sub(start).filter(|&offset| {
        let end = offset.checked_add(bytes.len() as u64);
        end.is_some_and(|end| end <= memory_bytes as u64)
    });
    if room.is_none() {
        let [wanted, all] = [bytes.len(), memory_bytes].map(|length| counted(length, "byte"));
        return Err(format!(
            "memory does not have {wanted} from {address:016X} on: it has {all} from {start:016X} on"
        ));
    }
    let subject = Subject::Memory { address };
    Ok(Expectation::Bytes { subject, bytes })
}

fn slice(values: &[&str], vector_bytes: usize) -> Result<Expectation, String> {
    let [name, way, number, tokens @ ..] = values else {
        return Err(TILE_FORM.to_string());
    };
    let tile = tile(name, vector_bytes)?;
    let direction = match *way {
        "horizontal" => Direction::Horizontal,
        "vertical" => Direction::Vertical,
        _ => {
            let way = shown(way);
            return Err(format!("a slice is horizontal or vertical, not '{way}'"));
        }
    };
    let slice = member("slice", tile.slices(), number)?;
    let bytes = exactly(tokens, "slice", vector_bytes)?;
    let subject = Subject::Slice {
        tile,
        direction,
        slice,
    };
    Ok(Expectation::Bytes { subject, bytes })
}

/// A tile that exists, by its element bytes and its number.
fn tile(text: &str, vector_bytes: usize) -> Result<Tile, String> {
    named(text)
        .and_then(|tile| Tile::existing(tile, vector_bytes))
        .ok_or_else(|| {
            let text = shown(text);
            format!(
                "'{text}' is no tile: element bytes 1, 2, 4, 8 or 16, a colon and a number below that"
            )
        })
}
