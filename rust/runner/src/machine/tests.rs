//! What is said of a word, and kept of memory, is checked against what the unit does.

use super::*;
use crate::script::parse;
use crate::taken::{active_elements, Taken};
use std::path::Path;

/// Vector lengths, each with one that the buffers are laid out for.
const LENGTHS: [(usize, usize); 9] = [
    (16, 16),
    (32, 32),
    (64, 64),
    (128, 128),
    (256, 256),
    (16, 32),
    (16, 256),
    (64, 128),
    (128, 256),
];

fn machine(vector_bytes: usize, largest: usize) -> Machine {
    let lengths = format!("vector-bytes {vector_bytes}\nlargest-vector-bytes {largest}\n");
    let text = format!("{lengths}word C0000000\n");
    let mut machine = Machine::new(&parse(&text, Path::new("")).expect("a good script"));
    machine.state.x.fill(0x1_0000_0007);
    machine
}

fn parts(execution: &Execution) -> Parts {
    Parts::of(execution.operation.expect("the word decodes"))
}

/// Bytes that are not zero and differ from their neighbours.
fn fill(bytes: &mut [u8], step: usize) {
    for (number, byte) in bytes.iter_mut().enumerate() {
        *byte = (number * step % 251 + 1) as u8;
    }
}

/// The bytes of the array that a word takes.
fn taken_bytes(taken: &Taken, (vector_bytes, largest): (usize, usize)) -> Vec<usize> {
    let whole = |vector: usize| vector * largest..vector * largest + vector_bytes;
    match taken {
        Taken::Vectors(vectors) => vectors.iter().flat_map(|&v| whole(v)).collect(),
        Taken::Slice {
            tile,
            direction: Direction::Horizontal,
            slice,
        } => whole(tile.vector(*slice)).collect(),
        Taken::Slice { tile, slice, .. } => {
            let size = tile.element_bytes;
            let element = |e| tile.vector(e) * largest + slice * size;
            let places = (0..tile.slices()).map(element);
            places.flat_map(|place| place..place + size).collect()
        }
    }
}

/// What is said of a word is checked against what the unit does: it zeroes just what is taken.
#[test]
fn what_a_moving_and_zeroing_word_takes_is_what_the_unit_zeroes() {
    let words = [
        0xC0020200, 0xC042A2E1, 0xC082A2C6, 0xC0C2E3BF, 0xC0C3E3E0, 0xC0060A6A, 0xC0064EFC,
    ];
    for (vector_bytes, largest) in LENGTHS {
        for word in words {
            let mut machine = machine(vector_bytes, largest);
            machine.state.za.fill(0xEE);
            let done = machine.execute(word);
            assert_eq!(done.answer, Ok(()));
            let taken = Taken::by(parts(&done), vector_bytes, &machine.state.x);
            let mut expected = taken_bytes(&taken, (vector_bytes, largest));
            expected.sort_unstable();
            let zeros = machine
                .state
                .za
                .iter()
                .enumerate()
                .filter(|(_, &byte)| byte == 0);
            assert_eq!(
                zeros.map(|(i, _)| i).collect::<Vec<_>>(),
                expected,
                "{word:08X}"
            );
        }
    }
}

/// Whether each of the bytes that a word takes is moved to a register or memory: those of active elements are.
fn moved_bytes(parts: Parts, taken: &Taken, machine: &Machine) -> Vec<bool> {
    let length = machine.vector_bytes();
    match *taken {
        Taken::Vectors(ref vectors) => vec![true; vectors.len() * length],
        Taken::Slice { tile, .. } => {
            let predicate = parts.governing_predicate.expect("there is one");
            let predicate = machine.member(Place::Predicate, usize::from(predicate));
            let active = active_elements(tile, predicate);
            let element = |byte| byte / tile.element_bytes;
            (0..length)
                .map(|byte| active.contains(&element(byte)))
                .collect()
        }
    }
}

/// A word that does not zero is checked by the registers: they get just what is taken and active.
#[test]
fn what_a_moving_word_takes_is_what_the_unit_moves() {
    let words = [
        0xC0025569, 0xC04299BE, 0xC082AD25, 0xC0C2FDBF, 0xC0C305E2, 0xC00628E8, 0xC0062CE8,
    ];
    for (vector_bytes, largest) in LENGTHS {
        for word in words {
            let mut machine = machine(vector_bytes, largest);
            fill(&mut machine.state.p, 37);
            fill(&mut machine.state.za, 7);
            let mut expected = machine.state.clone();
            let done = machine.execute(word);
            assert_eq!(done.answer, Ok(()));
            let parts = parts(&done);
            let taken = Taken::by(parts, vector_bytes, &machine.state.x);
            let first = usize::from(parts.vector.expect("there is one"));
            let places = taken_bytes(&taken, (vector_bytes, largest)).into_iter();
            let moved = moved_bytes(parts, &taken, &machine);
            for (number, (place, moved)) in places.zip(moved).enumerate() {
                let (register, byte) = (first + number / vector_bytes, number % vector_bytes);
                if moved {
                    expected.z[register * largest + byte] = expected.za[place];
                }
            }
            assert!(machine.state == expected, "{word:08X}");
        }
    }
}

/// A machine that has this word's slice in memory, at the addresses of all its elements.
fn machine_for(word: u32, (vector_bytes, largest): (usize, usize)) -> Machine {
    let mut machine = machine(vector_bytes, largest);
    fill(&mut machine.state.p, 37);
    fill(&mut machine.state.za, 7);
    machine.state.x[31] = 0x2_0000_0000;
    machine.memory = vec![0; vector_bytes];
    fill(&mut machine.memory, 11);
    let parts = Parts::of(decode(word, 3).expect("the word decodes"));
    let access = parts.access.expect("a load or store");
    let address = first_address(access, &machine.state.x);
    machine.settings = machine.settings.with_memory_address(address);
    machine
}

/// A load is checked by the array: just what is taken gets what is at the address, or zero where it is not active.
#[test]
fn what_a_load_takes_is_what_the_unit_loads() {
    let words = [0xE006AF2E, 0xE05F724D, 0xE08CC7AE, 0xE0DB37ED, 0xE1C8FA6D];
    for lengths in LENGTHS {
        for word in words {
            let mut machine = machine_for(word, lengths);
            let mut expected = machine.state.clone();
            let memory = machine.memory.clone();
            let done = machine.execute(word);
            assert_eq!(done.answer, Ok(()));
            let parts = parts(&done);
            let taken = Taken::by(parts, lengths.0, &machine.state.x);
            let places = taken_bytes(&taken, lengths).into_iter();
            let loaded = moved_bytes(parts, &taken, &machine);
            for (byte, (place, loaded)) in places.zip(loaded).enumerate() {
                expected.za[place] = if loaded { memory[byte] } else { 0 };
            }
            assert!(machine.state == expected, "{word:08X}");
            assert!(machine.memory == memory && done.memory_before.is_empty());
        }
    }
}

/// Whatever the place of a store in memory, or over its ends: all that it changes is in what is kept.
#[test]
fn what_is_kept_of_memory_has_all_that_a_store_changes() {
    for (vector_bytes, largest) in [(16, 16), (16, 64), (256, 256)] {
        for (below, above) in [(0, 0), (40, 100), (16, 1), (1, 64), (1000, 3)] {
            for word in [0xE02E2041, 0xE071D52E, 0xE1F55D4B] {
                let mut machine = machine_for(word, (vector_bytes, largest));
                let address = machine.settings.memory_address.wrapping_sub(below);
                machine.settings = machine.settings.with_memory_address(address);
                machine.memory = vec![0; below as usize + vector_bytes + above];
                let mut expected = machine.memory.clone();
                let done = machine.execute(word);
                assert_eq!(done.answer, Ok(()));
                let kept = done.memory_start..done.memory_start + done.memory_before.len();
                expected[kept].copy_from_slice(done.memory_after(&machine));
                assert!(machine.memory == expected && expected.iter().any(|&byte| byte != 0));
                assert!(done.memory_before.len() <= vector_bytes + 2 * MEMORY_ROW);
            }
        }
    }
}

/// A slice that begins at the last addresses goes on at address 0.
#[test]
fn what_is_kept_of_memory_is_right_where_addresses_wrap() {
    let text = "vector-bytes 16\nmemory 00000000000000000000000000000000\n\
                predicate 0 F0FF\nregister 1 FFFFFFFFFFFFFFFC\nword 00000000\n";
    let script = parse(text, Path::new("")).expect("a good script");
    let mut machine = Machine::new(&script);
    script
        .steps
        .iter()
        .for_each(|step| machine.set(&step.action));
    machine.state.za.fill(7);
    let done = machine.execute(0xE03F0020);
    assert_eq!(done.answer, Ok(()));
    assert_eq!((done.memory_start, done.memory_before.len()), (0, 16));
    assert_eq!(machine.memory, [[7; 12].as_slice(), &[0; 4]].concat());
}

/// A store is checked by memory.
#[test]
fn what_a_store_takes_is_what_the_unit_stores() {
    let words = [0xE02E2041, 0xE071D52E, 0xE0BE386B, 0xE0E4EBEB, 0xE1F55D4B];
    for lengths in LENGTHS {
        for word in words {
            let mut machine = machine_for(word, lengths);
            let before = machine.state.clone();
            let mut expected = machine.memory.clone();
            let done = machine.execute(word);
            assert_eq!(done.answer, Ok(()));
            let parts = parts(&done);
            let taken = Taken::by(parts, lengths.0, &machine.state.x);
            let places = taken_bytes(&taken, lengths).into_iter();
            let stored = moved_bytes(parts, &taken, &machine);
            for (byte, (place, stored)) in places.zip(stored).enumerate() {
                if stored {
                    expected[byte] = before.za[place];
                }
            }
            assert!(machine.memory == expected, "{word:08X}");
            assert!(machine.state == before);
        }
    }
}

/// Where no member is, a zero that is written is noticed, in each of the buffers.
#[test]
fn what_is_between_is_watched() {
    for (vector_bytes, largest) in LENGTHS {
        let [before, mut changed] = [(); 2].map(|()| machine(vector_bytes, largest));
        for place in PLACES {
            let members = 0..place.members(vector_bytes);
            let within: Vec<usize> = members
                .flat_map(|number| place.range(number, before.settings))
                .collect();
            // Not every byte: that would take long.
            for byte in (0..place.buffer(&before.state).len()).step_by(13) {
                let old = place.buffer(&before.state)[byte];
                place.buffer_mut(&mut changed.state)[byte] = 0;
                let noticed = !changed.kept_between(&before.state);
                assert_eq!(noticed, within.binary_search(&byte).is_err());
                place.buffer_mut(&mut changed.state)[byte] = old;
            }
        }
    }
}

#[test]
#[should_panic(expected = "the archive changed bytes beyond the vector length, by a test")]
fn a_change_between_stops_the_runner() {
    let [before, mut changed] = [(); 2].map(|()| machine(16, 32));
    changed.state.z[15] = 7;
    changed.assert_kept(&before.state, "nothing");
    changed.state.z[16] = 7;
    changed.assert_kept(&before.state, "a test");
}
