//! The switch of the stack check (request 4, which amends document 01,
//! sections 2 and 6): with it off a misaligned stack pointer is a base like
//! any other.

use super::machine::Machine;
use super::slices::{loads, stores, Slice, SIZES, VERTICAL};

/// Example 9 of section 7, and the same as a load: m=1, W12, P0, the stack
/// pointer as base, and an offset register that reads as zero.
pub const STORE: u32 = 0xE03F_03E0;
pub const LOAD: u32 = 0xE01F_03E0;
/// The stack pointer of both, which is no multiple of 16.
const STACK_POINTER: u64 = 0x1008;

/// The state of both, all elements active, with memory from `address` on.
pub fn example(stack_check: bool, address: u64) -> Machine {
    let mut machine = Machine::new(16);
    machine.settings.stack_check = stack_check;
    machine.settings.memory_address = address;
    machine.set_w(12, 0);
    machine.set_all_active(0);
    machine.x[31] = STACK_POINTER;
    machine
}

/// What the store leaves where it is done: the row at 1008 to 1017.
pub fn stored(machine: &Machine) -> Machine {
    let mut wanted = machine.clone();
    wanted.memory[8..24].copy_from_slice(&machine.za(0));
    wanted
}

/// What the load leaves where it is done: in the row, the bytes of there.
pub fn loaded(machine: &Machine) -> Machine {
    let mut wanted = machine.clone();
    wanted.set_za(0, &machine.memory[8..24]);
    wanted
}

/// Example 9 and the load, the check on: 6, wherever memory is.
#[test]
fn on_it_is_refused() {
    for address in [0x1000, 0x2000] {
        for word in [STORE, LOAD] {
            example(true, address).expect_refused(word, 6);
        }
    }
}

/// The check off, memory from 1000 on: done.
#[test]
fn off_it_is_done() {
    let machine = example(false, 0x1000);
    machine.clone().expect_done(STORE, &stored(&machine));
    machine.clone().expect_done(LOAD, &loaded(&machine));
}

/// The check off and memory elsewhere: 7, with the address of element 0,
/// which is not rounded.
#[test]
fn off_it_faults() {
    for address in [0, 0x1009, 0x2000] {
        for word in [STORE, LOAD] {
            example(false, address).expect_fault(word, STACK_POINTER, 0);
        }
    }
}

/// Every size, both ways, at every distance from a multiple of 16: with the
/// check off the access goes to the stack pointer itself, with an offset
/// register beside it too; with the check on it is refused, but for the
/// multiple.
#[test]
fn off_every_stack_pointer_is_a_base() {
    let active = [0, 1];
    for (m, load, store) in SIZES {
        for (vertical, bit) in [(false, 0), (true, VERTICAL)] {
            for over in 0..16 {
                let mut machine = Machine::new(32);
                machine.set_memory(0x1000, 96);
                machine.set_w(12, 1);
                machine.set_predicate(0, active.map(|e| e * m));
                (machine.x[2], machine.x[31]) = (1, 0x1000 + over as u64);
                // Base 31 in place of 1.
                let [load, store] = [load, store].map(|word| word | bit | 0x3E0);
                if over != 0 {
                    machine.expect_refused(load, 6);
                    machine.expect_refused(store, 6);
                }
                machine.settings.stack_check = false;
                let (tile, s) = (0, 1);
                let at = Slice {
                    m,
                    vertical,
                    tile,
                    s,
                };
                loads(&machine, load, at, over + m, &active);
                stores(&machine, store, at, over + m, &active);
            }
        }
    }
}

/// Nothing else is switched: a misaligned stack pointer that is no base, and
/// one that is a multiple of 16, in memory or behind it, give the same in
/// both positions.
#[test]
fn nothing_else_is_switched() {
    for (word, stack_pointer) in [
        (0xC000_0000, 0x1001),
        (0xC006_0E00, 0x1001),
        (0xE022_0020, 0x1001),
        (0xE01F_0020, 0x1001),
        (STORE, 0x1010),
        (LOAD, 0x1010),
        (STORE, 0x1040),
        (LOAD, 0x1040),
    ] {
        let [on, off] = [true, false].map(|stack_check| {
            let mut machine = example(stack_check, 0x1000);
            (machine.x[1], machine.x[2]) = (0x1003, 5);
            machine.x[31] = stack_pointer;
            let answer = machine.run(word);
            machine.settings.stack_check = true;
            (answer, machine)
        });
        assert!(on == off, "{word:08X}");
    }
}
