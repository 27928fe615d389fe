//! What a case looks like from outside, for counting and for printing.

use crate::case::{Case, Outcome};
use crate::names::{self, is_access, is_array, is_predicated, Answer, Named, FAULT};
use second::decode::decode;
use second::flat::Flat;
use sme_move::{Direction, Refusal};
use std::ops::Range;

/// Addresses wrap here.
const ADDRESSES: u128 = 1 << 64;

/// A case, its answer, and some numbers worked out of it.
pub struct View<'a> {
    pub case: &'a Case,
    /// The answer's number.
    answer: u32,
    pub address: u64,
    pub element: u64,
    /// The buffers after the call.
    pub after: &'a Outcome,
    /// What the word decodes to at the highest level.
    pub operation: Option<Flat>,
    /// The numbers of the active elements, where there is a predicate.
    pub active: Vec<usize>,
}

impl<'a> View<'a> {
    pub fn new(case: &'a Case, outcome: &'a Outcome) -> View<'a> {
        let operation = decode(case.word, 3).ok();
        View {
            case,
            answer: outcome.answer,
            address: outcome.address,
            element: outcome.element,
            after: outcome,
            operation,
            active: operation.map_or(Vec::new(), |own| active(case, &own)),
        }
    }

    /// Whether this is the answer, whatever goes with it.
    pub fn answered(&self, answer: Answer) -> bool {
        self.answer == names::number(answer)
    }

    pub fn done(&self) -> bool {
        self.answered(Ok(()))
    }

    pub fn refused(&self, refusal: Refusal) -> bool {
        self.answered(Err(refusal))
    }

    pub fn vector_bytes(&self) -> u64 {
        self.case.settings.vector_bytes
    }

    /// How far apart vectors start in their buffers.
    pub fn largest(&self) -> u64 {
        self.case.settings.largest_vector_bytes
    }

    /// The operation, if it is a load or store.
    pub fn access(&self) -> Option<Flat> {
        self.operation.filter(|own| is_access(own.kind()))
    }

    /// Whether the operation has a governing predicate.
    pub fn predicated(&self) -> bool {
        self.operation.is_some_and(|own| is_predicated(own.kind()))
    }

    /// The bytes of the governing predicate.
    pub fn predicate(&self) -> &[u8] {
        let register = self.operation.map_or(0, |own| own.predicate);
        predicate(self.case, register)
    }

    /// What the index sum is reduced by (document 01, section 5).
    pub fn elements(&self) -> u64 {
        self.vector_bytes() / self.operation.map_or(1, |own| parts(&own))
    }

    /// W + offset.
    pub fn index_sum(&self) -> u64 {
        let sum = |own: Flat| self.x(own.index) % (1 << 32) + u64::from(own.offset);
        self.operation.map_or(0, sum)
    }

    /// The number of the slice, or of the first vector of a group.
    pub fn number(&self) -> u64 {
        self.index_sum() % self.elements()
    }

    /// Where element e of the operation's slice is in ZA (document 01, section
    /// 3).
    pub fn place(&self, own: &Flat, e: usize) -> Range<usize> {
        let m = usize::from(own.element_bytes);
        let slice = self.number() as usize;
        let (row, column) = match names::direction(own) {
            Direction::Horizontal => (slice, e),
            Direction::Vertical => (e, slice),
        };
        let vector = row * m + usize::from(own.tile);
        let first = vector * self.largest() as usize + column * m;
        first..first + m
    }

    /// The base register of a load or store.
    pub fn base(&self) -> Option<u8> {
        self.access().map(|own| own.base)
    }

    /// The offset register of a load or store.
    pub fn offset_register(&self) -> Option<u8> {
        self.access().map(|own| own.offset_register)
    }

    /// m, the bytes of an element.
    fn element_bytes(&self) -> u128 {
        self.operation
            .map_or(1, |own| u128::from(own.element_bytes))
    }

    /// What the offset register adds to the base, over whole numbers: the
    /// product of its value with m.
    pub fn product(&self) -> u128 {
        let offset = match self.offset_register() {
            Some(31) | None => 0,
            Some(number) => self.x(number),
        };
        u128::from(offset) * self.element_bytes()
    }

    /// The address of element 0 of a load or store.
    pub fn start(&self) -> u128 {
        let base = self.base().map_or(0, |number| self.x(number));
        (u128::from(base) + self.product()) % ADDRESSES
    }

    /// The address of byte i of element e of a load or store.
    fn address_of(&self, e: usize, i: u128) -> u128 {
        (self.start() + e as u128 * self.element_bytes() + i) % ADDRESSES
    }

    /// The addresses of an element's first byte and of its last. Where the
    /// last is below the first, the element goes over 2^64.
    pub fn ends(&self, e: usize) -> (u128, u128) {
        let last = self.element_bytes() - 1;
        (self.address_of(e, 0), self.address_of(e, last))
    }

    /// Whether all bytes of an element are in memory, which does not wrap.
    pub fn in_memory(&self, e: usize) -> bool {
        let memory = self.memory_start()..self.memory_end();
        let (first, last) = self.ends(e);
        first <= last && memory.contains(&first) && memory.contains(&last)
    }

    /// The address of the first byte of the lowest active element.
    pub fn first_address(&self) -> Option<u128> {
        self.active.first().map(|&e| self.ends(e).0)
    }

    /// The address of the last byte of the highest active element.
    pub fn last_address(&self) -> Option<u128> {
        self.active.last().map(|&e| self.ends(e).1)
    }

    /// Whether an active element's number takes its address past 2^64.
    pub fn wraps(&self) -> bool {
        self.last_address().is_some_and(|last| last < self.start())
    }

    /// The element that the address of answer 7 is in, which must be the one
    /// that it tells, and the number of the element's byte that has it.
    pub fn fault(&self) -> Option<(usize, u128)> {
        if !self.refused(FAULT) {
            return None;
        }
        let from_start = (u128::from(self.address) + ADDRESSES - self.start()) % ADDRESSES;
        let m = self.element_bytes();
        Some(((from_start / m) as usize, from_start % m))
    }

    pub fn memory_start(&self) -> u128 {
        u128::from(self.case.settings.memory_address)
    }

    /// One past the last address of memory.
    pub fn memory_end(&self) -> u128 {
        self.memory_start() + self.case.memory.len() as u128
    }

    /// Whether the stack pointer is a multiple of 16.
    pub fn aligned(&self) -> bool {
        self.x(31).is_multiple_of(16)
    }

    /// Whether the stack check, if it is on, refuses the load or store: the
    /// stack pointer is the base and not aligned, and an element is active.
    pub fn stack_misaligned(&self) -> bool {
        self.base() == Some(31) && !self.active.is_empty() && !self.aligned()
    }

    /// A register, or 0 where X is too short to have it.
    fn x(&self, number: u8) -> u64 {
        let found = self.case.x.get(usize::from(number));
        found.copied().unwrap_or(0)
    }
}

/// By what the vector length is divided to give the modulus of the index.
fn parts(operation: &Flat) -> u64 {
    u64::from(if is_array(operation.kind()) {
        operation.vectors
    } else {
        operation.element_bytes
    })
}

/// The bytes of a predicate register, or none where P is too short.
fn predicate(case: &Case, register: u8) -> &[u8] {
    let [length, apart] = [
        case.settings.vector_bytes,
        case.settings.largest_vector_bytes,
    ]
    .map(|bytes| (bytes / 8).min(64) as usize);
    let first = usize::from(register) * apart;
    case.p.get(first..first + length).unwrap_or(&[])
}

/// The active elements: bit e*m of the predicate (document 01, section 3).
fn active(case: &Case, operation: &Flat) -> Vec<usize> {
    if !is_predicated(operation.kind()) {
        return Vec::new();
    }
    let m = usize::from(operation.element_bytes);
    let bits = predicate(case, operation.predicate);
    let set = |e: &usize| bits[e * m / 8] >> (e * m % 8) & 1 == 1;
    (0..bits.len() * 8 / m).filter(set).collect()
}
