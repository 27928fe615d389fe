//! One row of a table of words, as data, and the field bits to try on it.

use super::random::Random;
use crate::flat::{place, LENGTH};

/// A field of a row: where it stands in the word, and which of the eleven
/// numbers it gives (`first` plus `scale` times the bits).
pub struct Field {
    pub place: usize,
    pub high: u32,
    pub low: u32,
    pub first: u8,
    pub scale: u8,
}

impl Field {
    /// The highest value of the bits; the lowest is 0.
    pub fn top(&self) -> u32 {
        (1 << (self.high - self.low + 1)) - 1
    }

    /// The number that the bits stand for.
    pub fn number(&self, bits: u32) -> u8 {
        self.first + self.scale * bits as u8
    }
}

/// A row: base word, least level, the numbers that are the same for all its
/// words, and its fields.
pub struct Row {
    pub base: u32,
    pub level: u8,
    pub kind: u8,
    pub element_bytes: u8,
    pub vectors: u8,
    pub fields: &'static [Field],
}

impl Row {
    /// The word with these field bits.
    pub fn word(&self, bits: &[u32]) -> u32 {
        let fields = self.fields.iter().zip(bits);
        fields.fold(self.base, |word, (field, bits)| word | bits << field.low)
    }

    /// The eleven numbers with these field bits.
    pub fn numbers(&self, bits: &[u32]) -> [u8; LENGTH] {
        let mut numbers = [0; LENGTH];
        numbers[place::KIND] = self.kind;
        numbers[place::ELEMENT_BYTES] = self.element_bytes;
        numbers[place::VECTORS] = self.vectors;
        for (field, &bits) in self.fields.iter().zip(bits) {
            numbers[field.place] = field.number(bits);
        }
        numbers
    }

    /// The bits of a word that no field covers.
    pub fn fixed(&self) -> u32 {
        let covered = self.fields.iter().map(|field| field.top() << field.low);
        !covered.fold(0, |all, one| all | one)
    }

    /// Whether the row has a field for that one of the eleven numbers.
    pub fn has(&self, place: usize) -> bool {
        self.fields.iter().any(|field| field.place == place)
    }

    /// All fields at 0.
    pub fn lowest(&self) -> Vec<u32> {
        vec![0; self.fields.len()]
    }

    /// All fields at their highest.
    pub fn highest(&self) -> Vec<u32> {
        self.fields.iter().map(Field::top).collect()
    }

    /// All fields cut out of one pattern, neither all low nor all high.
    pub fn mixed(&self, pattern: u32) -> Vec<u32> {
        self.fields.iter().map(|f| pattern & f.top()).collect()
    }

    /// Random field bits.
    pub fn random(&self, random: &mut Random) -> Vec<u32> {
        let pick = |field: &Field| random.below(field.top() as usize + 1) as u32;
        self.fields.iter().map(pick).collect()
    }

    /// Every combination of fields at their lowest and highest.
    pub fn corners(&self) -> Vec<Vec<u32>> {
        let corner = |chosen: u32| {
            let at_end = |(at, field): (usize, &Field)| (chosen >> at & 1) * field.top();
            self.fields.iter().enumerate().map(at_end).collect()
        };
        (0..1 << self.fields.len()).map(corner).collect()
    }

    /// Every value of each single field, the others as in `rest`.
    pub fn sweeps(&self, rest: &[u32]) -> Vec<Vec<u32>> {
        let mut all = Vec::new();
        for (at, field) in self.fields.iter().enumerate() {
            for value in 0..=field.top() {
                let mut bits = rest.to_vec();
                bits[at] = value;
                all.push(bits);
            }
        }
        all
    }
}

/// Two patterns for `Row::mixed`, each the complement of the other in the
/// five bits of the widest field.
pub const PATTERNS: [u32; 2] = [0b10110, 0b01001];
