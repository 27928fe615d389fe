//! The mistakes about the switch of the stack check. Each test states what is
//! right by request 4, and what the mistake makes of it: that and nothing
//! more.

use super::access_mistakes::mistaken_leaves;
use super::machine::{plain, Machine};
use super::stack_check::{example, loaded, stored, LOAD, STORE};
use crate::execute::Mistake;

/// Where memory is for the accesses to be done.
const ADDRESS: u64 = 0x1000;

/// The mistaken word is refused with 6.
fn mistaken_refuses(machine: &Machine, word: u32, mistake: Mistake) {
    machine.expect_answer(mistake, word, plain(6));
}

/// With the check on nothing goes wrong: both words are refused.
#[test]
fn stack_switch_ignored() {
    for stack_check in [true, false] {
        let machine = example(stack_check, ADDRESS);
        for word in [STORE, LOAD] {
            mistaken_refuses(&machine, word, Mistake::StackSwitchIgnored);
        }
    }
}

/// Off, both words are refused; on, they are done.
#[test]
fn stack_switch_inverted() {
    let mistake = Mistake::StackSwitchInverted;
    let off = example(false, ADDRESS);
    mistaken_refuses(&off, STORE, mistake);
    mistaken_refuses(&off, LOAD, mistake);
    let on = example(true, ADDRESS);
    mistaken_leaves(&on, STORE, mistake, &stored(&on));
    mistaken_leaves(&on, LOAD, mistake, &loaded(&on));
}

/// Off, the load is refused all the same; the store is done as it should be.
#[test]
fn stack_switch_for_stores_only() {
    let mistake = Mistake::StackSwitchForStoresOnly;
    let off = example(false, ADDRESS);
    mistaken_refuses(&off, LOAD, mistake);
    mistaken_leaves(&off, STORE, mistake, &stored(&off));
    let on = example(true, ADDRESS);
    mistaken_refuses(&on, STORE, mistake);
    mistaken_refuses(&on, LOAD, mistake);
}
