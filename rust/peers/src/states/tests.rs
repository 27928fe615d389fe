//! Verdicts on replies that are made here, without an emulator.

use super::faults::Fault;
use super::generate::{generate, PAGE};
use super::judge::{judge, Verdict};
use super::machine::{Abilities, End, Reply, MEMORY, MEMORY_BYTES};
use super::told::difference;
use super::Unit;
use compare::case::{Case, Outcome};
use compare::rows::encoding;
use second::execute::{Mistake, Settings};
use second::inputs::random::Random;
use sme_move::Refusal;

/// LD1 and ST1 of words, vertical and horizontal: tile 0, W12, P0, base X1,
/// offset XZR.
const LOAD_VERTICAL: u32 = 0xE09F_8020;
const LOAD_HORIZONTAL: u32 = 0xE09F_0020;
const STORE: u32 = 0xE0BF_0020;
/// LOAD_HORIZONTAL with the stack pointer as base.
const LOAD_BY_STACK: u32 = 0xE09F_03E0;

/// Four elements of four bytes, of which these are active, from an address on.
fn case(word: u32, active: u16, start: u64) -> Case {
    let mut random = Random::new(1);
    let mut case = Case::empty();
    case.word = word;
    case.settings = Settings {
        vector_bytes: 16,
        level: 1,
        streaming: true,
        za_on: true,
        memory_address: MEMORY,
        stack_check: true,
        largest_vector_bytes: 16,
    };
    case.x = (0..32).map(|_| random.bits()).collect();
    case.x[1] = start;
    case.x[12] = 0;
    case.x[31] = start;
    for (bytes, length) in [
        (&mut case.z, 512),
        (&mut case.p, 32),
        (&mut case.za, 256),
        (&mut case.memory, MEMORY_BYTES),
    ] {
        bytes.resize(length, 0);
        random.fill(bytes);
    }
    case.p[..2].copy_from_slice(&active.to_le_bytes());
    case
}

fn run(case: &Case) -> Outcome {
    let mut own = Outcome::default();
    Unit::Archive.execute(case, &mut own);
    own
}

/// The reply of a machine that does what the unit did.
fn reply_like(own: &Outcome) -> Reply {
    let signal = |number, address| End::Signal { number, address };
    let end = match Refusal::of_number(own.answer, own.address, own.element) {
        None => End::Done,
        Some(Refusal::OutsideMemory { address, .. }) => signal(11, address),
        Some(Refusal::StackMisaligned) => signal(7, 0),
        Some(_) => signal(4, 0),
    };
    Reply {
        end,
        x: own.x.clone(),
        z: own.z.clone(),
        p: own.p.clone(),
        za: own.za.clone(),
        memory: own.memory.clone(),
    }
}

fn verdict(case: &Case, reply: &Reply) -> Verdict {
    judge(case, Unit::Archive, &run(case), reply)
}

/// Element e of vertical slice 0 of tile 0 of words, at vectors of 16 bytes.
fn element(e: usize) -> std::ops::Range<usize> {
    let first = 4 * e * 16;
    first..first + 4
}

#[test]
fn a_machine_like_the_unit_agrees() {
    let mut random = Random::new(7);
    let mut case = Case::empty();
    let abilities = Abilities {
        level: 3,
        low_memory: true,
    };
    for _ in 0..3000 {
        generate(&mut random, &mut case, abilities);
        assert!(encoding(case.word).is_some());
        let own = run(&case);
        assert!([0, 4, 5, 6, 7].contains(&own.answer));
        assert_eq!(verdict(&case, &reply_like(&own)), Verdict::Agree);
    }
}

#[test]
fn every_buffer_is_compared() {
    for word in [LOAD_VERTICAL, LOAD_HORIZONTAL, STORE] {
        let case = case(word, 0xFFFF, MEMORY);
        let reply = reply_like(&run(&case));
        assert_eq!(verdict(&case, &reply), Verdict::Agree);
        let buffers: [fn(&mut Reply) -> &mut Vec<u8>; 4] = [
            |own| &mut own.z,
            |own| &mut own.p,
            |own| &mut own.za,
            |own| &mut own.memory,
        ];
        for buffer in buffers {
            for at in [0, 31] {
                let mut wrong = reply.clone();
                buffer(&mut wrong)[at] ^= 0x40;
                assert_eq!(verdict(&case, &wrong), Verdict::Differ);
            }
        }
        let mut wrong = reply;
        wrong.x[30] ^= 1;
        assert_eq!(verdict(&case, &wrong), Verdict::Differ);
    }
}

#[test]
fn a_fault_has_its_signal_and_address() {
    let end = MEMORY + MEMORY_BYTES as u64;
    let case = case(STORE, 0xFFFF, end - 8);
    let own = run(&case);
    assert_eq!((own.answer, own.address), (7, end));
    let reply = reply_like(&own);
    assert_eq!(verdict(&case, &reply), Verdict::Agree);
    for (number, address) in [(11, end + 1), (11, end - 8), (7, end), (4, end)] {
        let mut wrong = reply.clone();
        wrong.end = End::Signal { number, address };
        assert_eq!(verdict(&case, &wrong), Verdict::Differ);
    }
    let mut wrong = reply;
    wrong.memory[MEMORY_BYTES - 8] ^= 1;
    assert_eq!(verdict(&case, &wrong), Verdict::Differ);
}

#[test]
fn trailing_elements_may_only_be_as_they_were() {
    // Of four elements the second is active: the emulator leaves the last two.
    let case = case(LOAD_VERTICAL, 0x0010, MEMORY);
    let mut reply = reply_like(&run(&case));
    for e in [2, 3] {
        reply.za[element(e)].copy_from_slice(&case.za[element(e)]);
    }
    let known = Verdict::Known(vec![Fault::TrailingKept]);
    assert_eq!(verdict(&case, &reply), known);
    for at in [element(2).start, element(0).start, element(1).start, 8] {
        let mut wrong = reply.clone();
        wrong.za[at] ^= 1;
        assert_eq!(verdict(&case, &wrong), Verdict::Differ);
    }
    let mut half = reply.clone();
    half.za[element(3)].fill(0);
    assert_eq!(verdict(&case, &half), Verdict::Differ);
    let mut elsewhere = reply;
    elsewhere.memory[0] ^= 1;
    assert_eq!(verdict(&case, &elsewhere), Verdict::Differ);
}

#[test]
fn only_vertical_loads_keep() {
    let case = case(LOAD_HORIZONTAL, 0x0010, MEMORY);
    let mut reply = reply_like(&run(&case));
    reply.za[8..16].copy_from_slice(&case.za[8..16]);
    assert_eq!(verdict(&case, &reply), Verdict::Differ);
}

#[test]
fn at_a_page_the_elements_between_may_be_kept() {
    // Elements 0 and 3 are active, 1 and 2 not; 2 is the first on the second page.
    let case = case(LOAD_VERTICAL, 0x1001, MEMORY + PAGE - 8);
    let mut reply = reply_like(&run(&case));
    reply.za[element(2)].copy_from_slice(&case.za[element(2)]);
    let known = Verdict::Known(vec![Fault::CrossingKept]);
    assert_eq!(verdict(&case, &reply), known);
    reply.za[element(1)].copy_from_slice(&case.za[element(1)]);
    assert_eq!(verdict(&case, &reply), Verdict::Differ);
}

#[test]
fn a_unit_that_keeps_as_the_emulator_does_is_noticed() {
    let case = case(LOAD_VERTICAL, 0x0010, MEMORY);
    let mut own = run(&case);
    for e in [2, 3] {
        own.za[element(e)].copy_from_slice(&case.za[element(e)]);
    }
    let reply = reply_like(&own);
    let found = judge(&case, Unit::Archive, &own, &reply);
    assert_eq!(found, Verdict::Differ);
}

#[test]
fn without_a_stack_check_the_access_is_done() {
    let case = case(LOAD_BY_STACK, 0xFFFF, MEMORY + 8);
    let own = run(&case);
    assert_eq!(own.answer, 6);
    assert_eq!(verdict(&case, &reply_like(&own)), Verdict::Agree);
    let mut reply = reply_like(&own);
    reply.end = End::Done;
    assert_eq!(verdict(&case, &reply), Verdict::Differ);
    reply.za[..16].copy_from_slice(&case.memory[8..24]);
    let known = Verdict::Known(vec![Fault::NoStackCheck]);
    assert_eq!(verdict(&case, &reply), known);
    let mut unchecked = run(&case);
    unchecked.answer = 0;
    unchecked.za = reply.za.clone();
    let found = judge(&case, Unit::Archive, &unchecked, &reply);
    assert_eq!(found, Verdict::Differ);
}

/// With the switch of the unit's own check off that is no fault, and a unit
/// that checks all the same is wrong.
#[test]
fn with_the_stack_check_off_the_access_is_done_by_both() {
    let mut case = case(LOAD_BY_STACK, 0xFFFF, MEMORY + 8);
    case.settings.stack_check = false;
    let own = run(&case);
    assert_eq!(own.answer, 0);
    let reply = reply_like(&own);
    assert_eq!(verdict(&case, &reply), Verdict::Agree);
    let checked = Unit::Wrong(Mistake::StackSwitchIgnored);
    let mut own = Outcome::default();
    checked.execute(&case, &mut own);
    assert_eq!(judge(&case, checked, &own, &reply), Verdict::Differ);
}

#[test]
fn a_top_byte_is_no_part_of_an_address_to_linux() {
    let case = case(LOAD_HORIZONTAL, 0xFFFF, 0x5A00_0000_0000_0000 | MEMORY);
    let own = run(&case);
    assert_eq!(own.answer, 7);
    let mut reply = reply_like(&own);
    reply.end = End::Done;
    reply.za[..16].copy_from_slice(&case.memory[..16]);
    let known = Verdict::Known(vec![Fault::TopByteIgnored]);
    assert_eq!(verdict(&case, &reply), known);
    let found = judge(
        &case,
        Unit::Archive,
        &Outcome {
            answer: 0,
            address: 0,
            element: 0,
            ..own
        },
        &reply,
    );
    assert_eq!(found, Verdict::Differ);
}

#[test]
fn only_a_straddling_element_may_abort() {
    let end = MEMORY + MEMORY_BYTES as u64;
    let died = |told: &str| Reply {
        end: End::Died {
            told: told.to_string(),
        },
        ..Reply::default()
    };
    let told = "signal: 6, code should not be reached";
    let known = Verdict::Known(vec![Fault::StraddlingAborts]);
    assert_eq!(verdict(&case(STORE, 0xFFFF, end - 6), &died(told)), known);
    let others = [
        (case(STORE, 0xFFFF, end - 6), "signal: 11"),
        // No element straddles; the one that does is the first; it is inactive.
        (case(STORE, 0xFFFF, end - 8), told),
        (case(STORE, 0xFFFF, end - 2), told),
        (case(STORE, 0x1001, end - 6), told),
        (case(STORE, 0xFFFF, MEMORY), told),
    ];
    for (case, told) in others {
        assert_eq!(verdict(&case, &died(told)), Verdict::Differ);
    }
}

#[test]
fn a_difference_is_told_in_full() {
    let case = case(LOAD_VERTICAL, 0x0010, MEMORY);
    let own = run(&case);
    let mut reply = reply_like(&own);
    reply.za[element(1).start] ^= 0x0F;
    let told = difference(&case, &own, &reply);
    println!("{told}");
    for part in [
        "word E09F8020",
        "Ld1",
        "unit: answer 0",
        "peer: done",
        "X0  [",
        "P15",
        "ZA: 1 bytes differ, the first: 64, byte 0 of number 4; from 48:",
        "memory: alike",
    ] {
        assert!(told.contains(part), "{part} is missing in\n{told}");
    }
    reply.end = End::Died {
        told: "signal: 6".to_string(),
    };
    reply.za.clear();
    let told = difference(&case, &own, &reply);
    assert!(told.contains("peer: the emulator ended: signal: 6"));
    assert!(told.contains("ZA: the peer gave none"));
}
