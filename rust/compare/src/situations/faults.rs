//! Situations of loads and stores that are refused with 7: where they go, and
//! which element is told.

use super::accesses::Holds;
use crate::view::View;

/// One past the last address.
const ADDRESSES: u128 = 1 << 64;

pub const FAULTS: [(&str, Holds); 9] = [
    ("at an element's first byte", |v| {
        v.fault().is_some_and(|(_, byte)| byte == 0)
    }),
    ("after an active element in memory", |v| {
        v.fault().map(|(e, _)| e) != v.active.first().copied()
    }),
    ("a later active element in memory", |v| {
        v.active.last().is_some_and(|&e| v.in_memory(e))
    }),
    ("at an element that wrapped at 2^64", |v| {
        u128::from(v.address) < v.start()
    }),
    ("memory of length 0", |v| v.case.memory.is_empty()),
    ("at a middle element", in_the_middle),
    ("at the last element, not the first", |v| {
        v.element > 0 && v.element + 1 == v.elements()
    }),
    ("after an inactive element outside memory", |v| {
        let inactive = |e: &usize| !v.active.contains(e);
        let mut before = (0..v.element as usize).filter(inactive);
        before.any(|e| !v.in_memory(e))
    }),
    ("before an active one outside at a lower address", |v| {
        let first = v.ends(v.element as usize).0;
        let mut later = v.active.iter().filter(|&&e| e as u64 > v.element);
        later.any(|&e| !v.in_memory(e) && v.ends(e).0 < first)
    }),
];

/// What an element of one byte cannot have.
pub const FAULTS_OF_WIDE: [(&str, Holds); 8] = [
    ("at a later byte of an element", at_a_later_byte),
    (
        "at an element over 2^64, memory from address 0",
        over_from_address_0,
    ),
    (
        "at an element over 2^64, memory up to 2^64",
        over_up_to_the_last,
    ),
    ("memory shorter than an element", |v| {
        let m = v.access().map_or(0, |own| usize::from(own.element_bytes));
        (1..m).contains(&v.case.memory.len())
    }),
    ("at a middle element over the end of memory", |v| {
        in_the_middle(v) && at_a_later_byte(v)
    }),
    ("at a middle element over the start of memory", |v| {
        let (first, last) = v.ends(v.element as usize);
        let start = v.memory_start();
        in_the_middle(v) && first < start && (start..v.memory_end()).contains(&last)
    }),
    (
        "at a middle element over 2^64, memory from address 0",
        |v| in_the_middle(v) && over_from_address_0(v),
    ),
    ("at a middle element over 2^64, memory up to 2^64", |v| {
        in_the_middle(v) && over_up_to_the_last(v)
    }),
];

/// Whether answer 7 is for neither the first nor the last element.
fn in_the_middle(v: &View) -> bool {
    v.element > 0 && v.element + 1 < v.elements()
}

/// Whether the first byte of the element is in memory, and another is not.
fn at_a_later_byte(v: &View) -> bool {
    v.fault().is_some_and(|(_, byte)| byte > 0)
}

fn over_from_address_0(v: &View) -> bool {
    v.memory_start() == 0 && over_the_last_address(v)
}

/// The first byte outside has address 0 then.
fn over_up_to_the_last(v: &View) -> bool {
    v.memory_end() == ADDRESSES && v.address == 0 && over_the_last_address(v)
}

/// Whether the element of the fault begins before 2^64 and ends after 0.
fn over_the_last_address(v: &View) -> bool {
    let (first, last) = v.ends(v.element as usize);
    last < first
}
