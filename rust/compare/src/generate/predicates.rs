//! The governing predicate of a case.

use super::whole_bytes;
use crate::beyond::Beyond;
use crate::case::Case;
use second::flat::Flat;
use second::inputs::random::Random;

/// The bytes that elements can have.
const SIZES: [usize; 5] = [1, 2, 4, 8, 16];

/// Sets the bits of the operation's predicate register to one of several
/// patterns, many of which have whole bytes set or clear. The other registers
/// keep their random bits, so that a wrong register is noticed.
pub fn set(random: &mut Random, case: &mut Case, operation: &Flat) {
    let m = usize::from(operation.element_bytes.max(1));
    let register = register(case, operation);
    match random.below(22) {
        0 | 1 => register.fill(0xFF),
        2 => register.fill(0),
        3 => single(random, register, m),
        4 => register.fill(random.pick(&[0x55, 0xAA])),
        5 => thin(random, register),
        6 => {
            thin(random, register);
            invert(register);
        }
        7 => alike(random, register, m, false),
        8 => {
            register.fill(0xFF);
            set_elements(register, m, |_| false);
        }
        9 => starts_only(register, m),
        10 => stepped(random, register, m, 2),
        11 => stepped(random, register, m, 8),
        12 | 13 => run(random, register, m),
        14 => alike(random, register, m, true),
        15 => starts_only(register, random.pick(&SIZES)),
        16 | 17 => whole_bytes::bytes(random, register, m),
        18 | 19 => whole_bytes::blocks(random, register, m),
        _ => random.fill(register),
    }
    set_beyond(random, case);
}

/// Beyond the vector length all registers keep their random bits or, often,
/// have all of them set or none: no element goes by these.
fn set_beyond(random: &mut Random, case: &mut Case) {
    if let Some(beyond) = Beyond::of(&case.settings) {
        match random.below(4) {
            0 => beyond.fill_p(&mut case.p, 0xFF),
            1 => beyond.fill_p(&mut case.p, 0),
            _ => (),
        }
    }
}

/// The bytes of the operation's predicate register.
pub fn register<'a>(case: &'a mut Case, operation: &Flat) -> &'a mut [u8] {
    let length = case.settings.vector_bytes as usize / 8;
    let apart = case.settings.largest_vector_bytes as usize / 8;
    let first = usize::from(operation.predicate) * apart;
    &mut case.p[first..first + length]
}

/// One bit: the first or last element's, or any.
fn single(random: &mut Random, register: &mut [u8], m: usize) {
    let bits = 8 * register.len();
    let bit = match random.below(4) {
        0 => 0,
        1 => bits - m,
        _ => random.below(bits),
    };
    register.fill(0);
    register[bit / 8] = 1 << (bit % 8);
}

/// About one bit in sixteen.
fn thin(random: &mut Random, register: &mut [u8]) {
    for byte in register {
        let drawn = random.bits().to_le_bytes();
        *byte = drawn[..4].iter().fold(0xFF, |bits, own| bits & own);
    }
}

fn invert(register: &mut [u8]) {
    for byte in register {
        *byte = !*byte;
    }
}

/// Every element, by the bits at multiples of m and no other. With the m of
/// another size these are too few for the operation, or more than it needs.
fn starts_only(register: &mut [u8], m: usize) {
    register.fill(0);
    set_elements(register, m, |_| true);
}

/// Every so many elements one, from one of the first on. The bits between
/// are all 0 or random.
fn stepped(random: &mut Random, register: &mut [u8], m: usize, step: usize) {
    between(random, register);
    let first = random.below(step);
    set_elements(register, m, |e| e % step == first);
}

/// Elements that follow each other, from the first on or to the last, or
/// neither.
fn run(random: &mut Random, register: &mut [u8], m: usize) {
    between(random, register);
    let elements = 8 * register.len() / m;
    let length = 1 + random.below(elements);
    let first = match random.below(3) {
        0 => 0,
        1 => elements - length,
        _ => random.below(elements - length + 1),
    };
    set_elements(register, m, |e| (first..first + length).contains(&e));
}

/// Every element or none, and random bits beside.
fn alike(random: &mut Random, register: &mut [u8], m: usize, active: bool) {
    random.fill(register);
    set_elements(register, m, |_| active);
}

/// What the bits are that are not looked at.
fn between(random: &mut Random, register: &mut [u8]) {
    if random.chance(1, 2) {
        random.fill(register);
    } else {
        register.fill(0);
    }
}

/// Sets the bits at multiples of m, the only ones that are looked at
/// (document 01, section 3).
fn set_elements(register: &mut [u8], m: usize, active: impl Fn(usize) -> bool) {
    for e in 0..8 * register.len() / m {
        let bit = e * m;
        register[bit / 8] &= !(1 << (bit % 8));
        register[bit / 8] |= u8::from(active(e)) << (bit % 8);
    }
}
