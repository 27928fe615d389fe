//! Base and offset register of a load or store, aimed into memory or out of
//! it.

use super::causes::Causes;
use super::memory::BORDERS;
use super::predicates;
use super::registers::value;
use crate::case::Case;
use crate::names::FAULT;
use second::flat::Flat;
use second::inputs::random::Random;
use sme_move::Refusal;
use std::ops::Range;

/// The number with two meanings.
const THIRTY_ONE: usize = 31;

/// The lowest and the highest active element and one about in the middle
/// between, of m bytes each.
#[derive(Clone, Copy)]
struct Span {
    low: u64,
    middle: u64,
    high: u64,
    m: u64,
}

impl Span {
    /// From the lowest element's first byte to the highest one's last.
    fn bytes(self) -> u64 {
        (self.high - self.low + 1) * self.m
    }

    /// How many bytes of element 0 and so on come before the lowest.
    fn before(self) -> u64 {
        self.low * self.m
    }
}

/// Sets the registers so that the access is done or refused, as the causes
/// say. With the stack check off a misaligned stack pointer is no cause: it is
/// drawn where it would be one, and often elsewhere.
pub fn set(random: &mut Random, case: &mut Case, operation: &Flat, causes: &Causes) {
    let misaligned = causes.has(Refusal::StackMisaligned);
    let checked = case.settings.stack_check;
    if causes.has(FAULT) && random.chance(1, 3) {
        start_later(random, case, operation);
    }
    if misaligned || causes.has(FAULT) {
        activate(random, case, operation);
    }
    let refused = (misaligned && checked) || causes.has(FAULT);
    if !refused {
        fit_to_memory(case, operation);
    }
    let span = span(predicates::register(case, operation), operation);
    let start = match span {
        None => value(random),
        Some(span) if causes.has(FAULT) => outside(random, case, span),
        Some(span) => inside(random, case, span),
    };
    let either = span.is_none() || !checked;
    let misaligned = misaligned || (either && random.chance(1, 2));
    set_registers(random, case, operation, start, !misaligned);
}

/// Makes another element than the first the lowest active one, if there is
/// another: wherever memory is, it is not element 0 then that is outside.
fn start_later(random: &mut Random, case: &mut Case, operation: &Flat) {
    let m = usize::from(operation.element_bytes);
    let register = predicates::register(case, operation);
    let elements = 8 * register.len() / m;
    if elements > 1 {
        let bit = m * (1 + random.below(elements - 1));
        clear(register, 0..bit);
        register[bit / 8] |= 1 << (bit % 8);
    }
}

/// Makes an element active if there is none: causes 6 and 7 need one.
fn activate(random: &mut Random, case: &mut Case, operation: &Flat) {
    let m = usize::from(operation.element_bytes);
    let register = predicates::register(case, operation);
    if span(register, operation).is_none() {
        let bit = m * random.below(8 * register.len() / m);
        register[bit / 8] |= 1 << (bit % 8);
    }
}

/// An access that is to be done must have its active elements close enough
/// together for memory: clears those behind. Memory shorter than an element
/// leaves none.
fn fit_to_memory(case: &mut Case, operation: &Flat) {
    let m = usize::from(operation.element_bytes);
    let room = case.memory.len() / m;
    let register = predicates::register(case, operation);
    if let Some(span) = span(register, operation) {
        let bits = 8 * register.len();
        clear(register, (span.low as usize + room) * m..bits);
    }
}

fn clear(register: &mut [u8], bits: Range<usize>) {
    for bit in bits {
        register[bit / 8] &= !(1 << (bit % 8));
    }
}

fn span(register: &[u8], operation: &Flat) -> Option<Span> {
    let m = u64::from(operation.element_bytes);
    let active = |e: &u64| register[(e * m) as usize / 8] >> (e * m % 8) & 1 == 1;
    let mut elements = (0..8 * register.len() as u64 / m).filter(active);
    let low = elements.next()?;
    let high = elements.next_back().unwrap_or(low);
    let middle = (low.midpoint(high)..high).find(active).unwrap_or(high);
    Some(Span {
        low,
        middle,
        high,
        m,
    })
}

/// An address of element 0 that puts all active elements into memory, often
/// at one of its ends, where inactive ones are then outside. Where memory is
/// too small the last active ones stay out.
fn inside(random: &mut Random, case: &Case, span: Span) -> u64 {
    let spare = (case.memory.len() as u64).saturating_sub(span.bytes());
    let place = match random.below(8) {
        0 | 1 => 0,
        2 | 3 => spare,
        4 | 5 => at_border(random, spare, span),
        _ => random.below(spare as usize + 1) as u64,
    };
    let low = case.settings.memory_address.wrapping_add(place);
    low.wrapping_sub(span.before())
}

/// A place not above `spare` from which the active elements reach the byte of
/// a border, and mostly begin before it. Where memory is too short for that
/// it is any place.
fn at_border(random: &mut Random, spare: u64, span: Span) -> u64 {
    let border = random.pick(&BORDERS) as u64;
    if spare < border {
        return random.below(spare as usize + 1) as u64;
    }
    border - random.below(span.bytes() as usize) as u64
}

/// An address of element 0 that leaves an active element outside: some out
/// below memory, some out above it, one over its end, its start or 2^64,
/// wrapping near 2^64, or anywhere.
fn outside(random: &mut Random, case: &Case, span: Span) -> u64 {
    let first = case.settings.memory_address;
    let end = first.wrapping_add(case.memory.len() as u64);
    let by = random.below(span.bytes() as usize) as u64;
    match random.below(16) {
        0..=2 => first.wrapping_sub(1 + by + span.before()),
        3..=5 => {
            let last = span.before() + span.bytes() - 1;
            end.wrapping_add(by).wrapping_sub(last)
        }
        6..=9 => over(random, end, span),
        10..=12 => over(random, first, span),
        13 => over(random, 0, span),
        14 => random.below(600).wrapping_neg() as u64,
        _ => random.bits(),
    }
}

/// An address of element 0 with which the lowest, the middle or the highest
/// active element has some of its bytes before `edge` and some not, if it has
/// more than one, and sometimes none before.
fn over(random: &mut Random, edge: u64, span: Span) -> u64 {
    let e = random.pick(&[span.low, span.low, span.middle, span.high]);
    let before = if span.m == 1 || random.chance(1, 6) {
        0
    } else {
        1 + random.below(span.m as usize - 1) as u64
    };
    edge.wrapping_sub(before + e * span.m)
}

/// Shares `start` between base and offset register, of which the latter is
/// times m.
fn set_registers(
    random: &mut Random,
    case: &mut Case,
    operation: &Flat,
    start: u64,
    aligned: bool,
) {
    let m = u64::from(operation.element_bytes);
    let base = usize::from(operation.base);
    let offset = usize::from(operation.offset_register);
    let index = usize::from(operation.index);
    if base == THIRTY_ONE && offset == THIRTY_ONE {
        case.x[base] = stack_pointer_at(case, start, aligned);
    } else if offset == THIRTY_ONE {
        case.x[base] = start;
    } else if base == offset {
        case.x[base] = one_for_both(random, start, m);
    } else if base == THIRTY_ONE || base == index || random.chance(1, 2) {
        if base == THIRTY_ONE {
            case.x[base] = stack_pointer(random, aligned);
        }
        case.x[offset] = offset_to(random, case, start, case.x[base], m);
    } else {
        case.x[base] = start.wrapping_sub(case.x[offset].wrapping_mul(m));
    }
}

/// The register that is base and offset at once: 1 + m times it is `start`.
/// For bytes that is twice it, and an odd sum cannot be met.
fn one_for_both(random: &mut Random, start: u64, m: u64) -> u64 {
    if m == 1 {
        return (start / 2) | (random.bits() << 63);
    }
    // 1 + m is odd and so its own inverse modulo 8; each step doubles the
    // number of bits for which that is so.
    let step = |own: u64, _| own.wrapping_mul(2_u64.wrapping_sub(own.wrapping_mul(1 + m)));
    start.wrapping_mul((0..5).fold(1 + m, step))
}

/// The offset that leads from `base` to `start`. Where the distance is no
/// multiple of m, memory is moved along with `start`. The product of offset
/// and m has no place for the offset's highest bits, so that these are free.
fn offset_to(random: &mut Random, case: &mut Case, start: u64, base: u64, m: u64) -> u64 {
    let over = start.wrapping_sub(base) % m;
    let start = moved_along(case, start, over, m);
    let offset = start.wrapping_sub(base) / m;
    if m == 1 || random.chance(1, 2) {
        return offset;
    }
    offset | random.bits() << (64 - m.ilog2())
}

/// A stack pointer whose difference from the address the offset makes up.
fn stack_pointer(random: &mut Random, aligned: bool) -> u64 {
    let multiple = value(random) & !15;
    if aligned {
        multiple
    } else {
        multiple + 1 + random.below(15) as u64
    }
}

/// The stack pointer alone gives the address. To make it a multiple of 16,
/// or none, memory is moved along with it.
fn stack_pointer_at(case: &mut Case, start: u64, aligned: bool) -> u64 {
    match (aligned, start % 16) {
        (true, over) => moved_along(case, start, over, 16),
        (false, 0) => moved_along(case, start, 1, 2),
        (false, _) => start,
    }
}

/// Moves memory, and `start` with it, down by `over` or as far up that both
/// ways together are `unit`.
fn moved_along(case: &mut Case, start: u64, over: u64, unit: u64) -> u64 {
    let memory = &mut case.settings.memory_address;
    if *memory >= over {
        *memory -= over;
        start.wrapping_sub(over)
    } else {
        *memory += unit - over;
        start.wrapping_add(unit - over)
    }
}
