//! How many loads and stores were done, and how many were refused as only
//! they are.

use crate::names::FAULT;
use crate::view::View;
use sme_move::Refusal;
use std::fmt::{self, Display, Formatter};

/// Counts of cases whose word is a load or store.
#[derive(Default)]
pub struct Accesses {
    done: u64,
    /// Answer 6.
    misaligned: u64,
    /// Answer 7.
    outside: u64,
    /// Of these, the ones whose address is not that of an element's first
    /// byte.
    later_byte: u64,
    /// With the stack check off, done and answer 7 where it would have been
    /// 6.
    unchecked_done: u64,
    unchecked_outside: u64,
}

impl Accesses {
    /// Counts one case.
    pub fn add(&mut self, view: &View) {
        if view.access().is_none() {
            return;
        }
        let later = view.fault().is_some_and(|(_, byte)| byte > 0);
        let unchecked = view.stack_misaligned() && !view.case.settings.stack_check;
        self.done += u64::from(view.done());
        self.misaligned += u64::from(view.refused(Refusal::StackMisaligned));
        self.outside += u64::from(view.refused(FAULT));
        self.later_byte += u64::from(later);
        self.unchecked_done += u64::from(unchecked && view.done());
        self.unchecked_outside += u64::from(unchecked && view.refused(FAULT));
    }

    /// Takes the counts of other cases in.
    pub fn merge(&mut self, other: &Accesses) {
        self.done += other.done;
        self.misaligned += other.misaligned;
        self.outside += other.outside;
        self.later_byte += other.later_byte;
        self.unchecked_done += other.unchecked_done;
        self.unchecked_outside += other.unchecked_outside;
    }
}

impl Display for Accesses {
    fn fmt(&self, f: &mut Formatter) -> fmt::Result {
        writeln!(
            f,
            "loads and stores: {} done, {} of answer 6, {} of answer 7, {} of these at a later byte \
             of an element than its first",
            self.done, self.misaligned, self.outside, self.later_byte
        )?;
        write!(
            f,
            "by a misaligned stack pointer, the stack check off: {} done, {} of answer 7",
            self.unchecked_done, self.unchecked_outside
        )
    }
}
