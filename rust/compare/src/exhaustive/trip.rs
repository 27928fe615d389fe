//! There and back: decoding and encoding again, or encoding and decoding
//! again.

use super::codec::{Codec, Numbers};
use sme_move::Settings;

/// What the eleven numbers are before a call. No operation has numbers so
/// high, so that one that is not written shows.
pub const UNWRITTEN_NUMBERS: Numbers = [
    0xA0, 0xA1, 0xA2, 0xA3, 0xA4, 0xA5, 0xA6, 0xA7, 0xA8, 0xA9, 0xAA,
];

/// What the word is before a call; it decodes at no level.
const UNWRITTEN_WORD: u32 = 0x5A5A_5A5A;

/// What one program makes of its input, and of its own result.
#[derive(PartialEq, Eq)]
pub struct Trip<Result, Input> {
    pub answer: u32,
    result: Result,
    /// Where the answer is 0: the answer on the way back, and its result.
    back: Option<(u32, Input)>,
}

/// A decoding that gave this answer and left these numbers, and the encoding
/// of what was decoded.
pub fn decoded(program: &impl Codec, answer: u32, result: Numbers) -> Trip<Numbers, u32> {
    Trip {
        answer,
        result,
        back: (answer == 0).then(|| encode_one(program, &result)),
    }
}

/// Encodes, and decodes at the highest level what was encoded.
pub fn encode(program: &impl Codec, fields: &Numbers) -> Trip<u32, Numbers> {
    let (answer, result) = encode_one(program, fields);
    Trip {
        answer,
        result,
        back: (answer == 0).then(|| decode_one(program, result)),
    }
}

fn decode_one(program: &impl Codec, word: u32) -> (u32, Numbers) {
    let mut fields = UNWRITTEN_NUMBERS;
    let answer = program.decode(word, Settings::MAX_LEVEL, &mut fields);
    (answer, fields)
}

fn encode_one(program: &impl Codec, fields: &Numbers) -> (u32, u32) {
    let mut word = UNWRITTEN_WORD;
    let answer = program.encode(fields, &mut word);
    (answer, word)
}

impl Trip<Numbers, u32> {
    /// Whether the word came back, or the refusal left the numbers alone.
    pub fn right(&self, word: u32) -> bool {
        match self.back {
            Some(back) => back == (0, word),
            None => self.result == UNWRITTEN_NUMBERS,
        }
    }

    pub fn told(&self) -> String {
        let decoded = told(self.answer, &numbers(&self.result));
        match &self.back {
            Some((answer, word)) => {
                let back = told(*answer, &format!("{word:08X}"));
                format!("decoding {decoded}; encoding that {back}")
            }
            None => format!("decoding {decoded}"),
        }
    }
}

impl Trip<u32, Numbers> {
    /// Whether the numbers came back, or the refusal wrote 0.
    pub fn right(&self, fields: &Numbers) -> bool {
        match self.back {
            Some(back) => back == (0, *fields),
            None => self.result == 0,
        }
    }

    pub fn told(&self) -> String {
        let encoded = told(self.answer, &format!("{:08X}", self.result));
        match &self.back {
            Some((answer, fields)) => {
                let back = told(*answer, &numbers(fields));
                format!("encoding {encoded}; decoding that {back}")
            }
            None => format!("encoding {encoded}"),
        }
    }
}

fn told(answer: u32, result: &str) -> String {
    format!("answers {answer} and leaves {result}")
}

/// Eleven numbers, decimal.
pub fn numbers(fields: &Numbers) -> String {
    fields.map(|number| number.to_string()).join(" ")
}

/// The first difference, told in full.
pub fn difference(input: &str, archive: &str, second: &str) -> String {
    format!(
        "DIFFERENCE on {input}\narchive: {archive}\nsecond:  {second}\n\
         before each call the numbers are {} and the word is {UNWRITTEN_WORD:08X}",
        numbers(&UNWRITTEN_NUMBERS)
    )
}
