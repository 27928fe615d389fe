//! Worked examples of our own for the words that request 2 added, in the
//! manner of document 01, section 7; the pages of LD1 and ST1 say what is
//! right. Where the addresses are at an end is in `addresses`.

use super::machine::Machine;
use super::slices::{loads, stores, Slice, SIZES, VERTICAL};
use crate::decode::decode;
use crate::encode::encode;
use crate::flat::{self, Flat};
use crate::inputs::rows::{Row, ROWS};

/// Every size, both ways and at every vector length, at an address that is
/// not aligned: base 0x1003 and three elements further. All elements, every
/// third, the first only, the last only, none.
#[test]
fn every_size_both_ways() {
    for vector_bytes in [16, 32, 64, 128, 256] {
        for (m, load, store) in SIZES {
            let n = vector_bytes / m;
            let third: Vec<usize> = (0..n).step_by(3).collect();
            let all: Vec<usize> = (0..n).collect();
            for active in [all, third, vec![0], vec![n - 1], vec![]] {
                let mut machine = Machine::new(vector_bytes);
                machine.set_memory(0x1000, 3 + 3 * m + vector_bytes);
                (machine.x[1], machine.x[2]) = (0x1003, 3);
                machine.set_w(12, n as u32 + 5);
                machine.set_predicate(0, active.iter().map(|e| e * m));
                for (vertical, bit) in [(false, 0), (true, VERTICAL)] {
                    let (tile, s) = (0, 5 % n);
                    let at = Slice {
                        m,
                        vertical,
                        tile,
                        s,
                    };
                    stores(&machine, store | bit, at, 3 + 3 * m, &active);
                    loads(&machine, load | bit, at, 3 + 3 * m, &active);
                }
            }
        }
    }
}

/// The machine for the words with fields all different: vectors of 64 bytes,
/// the index register at its top, memory at 0x4000 and the base X register
/// (or stack pointer) such that the first element is at byte 16.
fn with_fields(operation: &Flat, active: &[usize]) -> Machine {
    let m = u64::from(operation.element_bytes);
    let mut machine = Machine::new(64);
    machine.settings.level = 1;
    machine.set_memory(0x4000, 96);
    machine.set_w(usize::from(operation.index), u32::MAX);
    if operation.offset_register == 31 {
        machine.x[31] = 0x7777;
        machine.x[usize::from(operation.base)] = 0x4010;
    } else {
        machine.x[usize::from(operation.offset_register)] = 48;
        machine.x[usize::from(operation.base)] = 0x4010 - 48 * m;
    }
    let bits = active.iter().map(|&e| e * m as usize);
    machine.set_predicate(usize::from(operation.predicate), bits);
    machine
}

/// One word of each of the nine rows, with field values all different: it
/// decodes to them, encodes back and moves that slice of that tile.
#[test]
fn fields_all_different() {
    for (word, numbers) in [
        (0xE071_D52E, [5, 2, 1, 1, 6, 14, 5, 0, 9, 17, 0]),
        (0xE0BE_386B, [5, 4, 0, 2, 3, 13, 6, 0, 3, 30, 0]),
        (0xE0E4_EBEB, [5, 8, 1, 5, 1, 15, 2, 0, 31, 4, 0]),
        (0xE1F5_5D4B, [5, 16, 0, 11, 0, 14, 7, 0, 10, 21, 0]),
        (0xE006_AF2E, [7, 1, 1, 0, 14, 13, 3, 0, 25, 6, 0]),
        (0xE05F_724D, [7, 2, 0, 1, 5, 15, 4, 0, 18, 31, 0]),
        (0xE08C_C7AE, [7, 4, 1, 3, 2, 14, 1, 0, 29, 12, 0]),
        (0xE0DB_37ED, [7, 8, 0, 6, 1, 13, 5, 0, 31, 27, 0]),
        (0xE1C8_FA6D, [7, 16, 1, 13, 0, 15, 6, 0, 19, 8, 0]),
    ] {
        let operation = Flat::from_bytes(numbers);
        assert_eq!(decode(word, 1), Ok(operation), "{word:08X}");
        assert_eq!(encode(&operation), Ok(word));
        let machine = with_fields(&operation, &[0, 2, 3]);
        let m = usize::from(operation.element_bytes);
        let at = Slice {
            m,
            vertical: operation.direction == 1,
            tile: usize::from(operation.tile),
            s: (u32::MAX as usize + usize::from(operation.offset)) % (64 / m),
        };
        match operation.kind {
            flat::STORE => stores(&machine, word, at, 16, &[0, 2, 3]),
            _ => loads(&machine, word, at, 16, &[0, 2, 3]),
        }
    }
}

/// Bit 4 set, and Q (bit 24) with another size than 11: answer 3 at every
/// level. Below level 1 no load or store decodes.
#[test]
fn words_that_do_not_decode() {
    let accesses = |row: &&Row| [flat::STORE, flat::LOAD].contains(&row.kind);
    let mut machine = Machine::new(16);
    machine.set_all_active(0);
    for level in 0..=3 {
        machine.settings.level = level;
        for row in ROWS.iter().filter(accesses) {
            for bits in row.corners() {
                machine.expect_refused(row.word(&bits) | 0x10, 3);
                if row.element_bytes < 8 {
                    machine.expect_refused(row.word(&bits) | 0x0100_0000, 3);
                }
                if level == 0 {
                    machine.expect_refused(row.word(&bits), 3);
                }
            }
        }
    }
}

/// A load without an active element sets the whole slice to zero, with a
/// stack pointer that is not aligned as base and no memory at all; a store
/// writes nothing. Predicate bits between the elements change nothing.
#[test]
fn no_active_element() {
    for (m, load, store) in SIZES {
        let mut machine = Machine::new(32);
        machine.memory.clear();
        machine.x[31] = 0x1008;
        machine.set_w(12, 1);
        machine.set_predicate(0, (0..32).filter(|bit| bit % m != 0));
        // Rn 31 and Rm 31, in place of 1 and 2.
        let on_stack = |word: u32| word & !0x001F_03E0 | 0x001F_03E0;
        for (vertical, bit) in [(false, 0), (true, VERTICAL)] {
            let (tile, s) = (0, 1);
            let at = Slice {
                m,
                vertical,
                tile,
                s,
            };
            loads(&machine, on_stack(load | bit), at, 0, &[]);
            stores(&machine, on_stack(store | bit), at, 0, &[]);
        }
        machine.set_predicate(0, [32 - m]);
        machine.expect_refused(on_stack(load), 6);
        machine.expect_refused(on_stack(store), 6);
    }
}

/// Column 3 of tile 1 of four bytes, of which elements 1 and 2 out of eight
/// are active: bytes 12 to 15 of vectors 5 and 9 are loaded, and those of
/// vectors 1 and 13 to 29 become zero, after the last active element too.
#[test]
fn a_column_with_inactive_elements_at_its_end() {
    let mut machine = Machine::new(32);
    machine.set_w(12, 3);
    (machine.x[1], machine.x[2]) = (7, 0);
    machine.set_predicate(0, [4, 8]);
    let mut wanted = machine.clone();
    wanted.set_za_part(5, 12, &machine.memory[11..15]);
    wanted.set_za_part(9, 12, &machine.memory[15..19]);
    for vector in [1, 13, 17, 21, 25, 29] {
        wanted.set_za_part(vector, 12, &[0; 4]);
    }
    machine.expect_done(0xE082_8024, &wanted);
}

/// With n = 1 the load takes vector 15 whatever W12 holds, and bit 0 of the
/// predicate alone tells sixteen bytes from zero.
#[test]
fn one_element_only() {
    for w in [0, 1, 7, u32::MAX] {
        let mut machine = Machine::new(16);
        machine.set_w(12, w);
        (machine.x[1], machine.x[2]) = (1, 2);
        machine.set_predicate(0, 1..16);
        let mut wanted = machine.clone();
        wanted.set_za(15, &[0; 16]);
        machine.clone().expect_done(0xE1C2_002F, &wanted);
        machine.set_predicate(0, [0]);
        let mut wanted = machine.clone();
        wanted.set_za(15, &machine.memory[33..49]);
        machine.expect_done(0xE1C2_802F, &wanted);
    }
}

/// Little-endian: 0x0403_0201 in an element is 1, 2, 3, 4 in memory.
#[test]
fn the_lowest_byte_is_first() {
    let mut machine = Machine::new(16);
    machine.set_w(12, 0);
    machine.set_predicate(0, [0]);
    (machine.x[1], machine.x[2]) = (5, 0);
    machine.set_za_part(0, 0, &0x0403_0201_u32.to_le_bytes());
    let mut stored = machine.clone();
    stored.memory[5..9].copy_from_slice(&[1, 2, 3, 4]);
    machine.expect_done(0xE0A2_0020, &stored);
    let mut loaded = stored.clone();
    loaded.set_za(0, &[1, 2, 3, 4, 0, 0, 0, 0, 0, 0, 0, 0, 0, 0, 0, 0]);
    stored.expect_done(0xE082_0020, &loaded);
}
