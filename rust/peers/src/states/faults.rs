//! What the emulator is known to do otherwise than Arm says, each with the
//! exact outcome that it then has.

use super::generate::PAGE;
use super::machine::{End, Reply};
use compare::case::{Case, Outcome};
use compare::names::{self, Named, FAULT};
use compare::view::View;
use second::flat::{place, Flat};
use second::inputs::rows::Row;
use sme_move::{Direction, Kind};

/// A known fault.
#[derive(Clone, Copy, Debug, PartialEq, Eq, Hash, PartialOrd, Ord)]
pub enum Fault {
    /// An access goes by a stack pointer that is no multiple of 16.
    NoStackCheck,
    /// The top byte of an address is not looked at: Linux promises that to
    /// programs, so that it is no fault but a difference of the setting.
    TopByteIgnored,
    /// A vertical load leaves the elements after the last active one as they
    /// were. Arm sets them to zero.
    TrailingKept,
    /// The same where the slice crosses a page: there inactive elements
    /// between the pages may be left as they were too.
    CrossingKept,
    /// The emulator aborts where an active element goes over the end of
    /// memory and another active element is before it.
    StraddlingAborts,
}

impl Fault {
    /// Every fault, with its name in the summary.
    pub const ALL: [(Fault, &'static str); 5] = [
        (
            Fault::NoStackCheck,
            "no stack check: a misaligned stack pointer serves as base",
        ),
        (
            Fault::TopByteIgnored,
            "top byte ignored: bits 63:56 of an address are a tag to Linux",
        ),
        (
            Fault::TrailingKept,
            "trailing kept: a vertical load leaves elements after the last active one",
        ),
        (
            Fault::CrossingKept,
            "crossing kept: a vertical load over a page leaves inactive elements",
        ),
        (
            Fault::StraddlingAborts,
            "straddling aborts: an element over the end of memory, with one before it",
        ),
    ];
}

/// What the emulator says when it comes to a place that it holds impossible.
const IMPOSSIBLE: &str = "should not be reached";

/// The same access with element 0 at another address, by a register that is
/// neither the stack pointer nor anything else to this word. So the unit says
/// what an emulator does that has no stack check, or no top byte.
pub fn by_other_register(case: &Case, row: &Row, own: &Flat, start: u64) -> Case {
    let used = [own.index, own.offset_register];
    let base = (0..31).find(|register| !used.contains(register));
    let base = base.expect("two are used, of 31");
    let mut twin = Case {
        settings: case.settings,
        word: case.word,
        x: case.x.clone(),
        z: case.z.clone(),
        p: case.p.clone(),
        za: case.za.clone(),
        memory: case.memory.clone(),
    };
    let field = row.fields.iter().find(|field| field.place == place::BASE);
    let field = field.expect("a load or store has a base");
    twin.word = case.word & !(field.top() << field.low) | u32::from(base) << field.low;
    let product = View::new(case, &Outcome::default()).product() as u64;
    twin.x[usize::from(base)] = start.wrapping_sub(product);
    twin
}

/// An address as Linux has the machine take it: without the top byte where
/// bit 55 is 0, which is where programs live.
pub fn without_top_byte(address: u64) -> u64 {
    if address >> 55 & 1 == 0 {
        return address & ((1 << 56) - 1);
    }
    address
}

/// The fault by which a vertical load that should have left `own` left
/// `reply`: exactly the elements that this fault leaves are as they were.
pub fn kept(view: &View, own: &Outcome, reply: &Reply) -> Option<Fault> {
    let operation = view.operation?;
    let vertical = names::direction(&operation) == Direction::Vertical;
    let vertical_load = operation.kind() == Kind::Ld1 && vertical;
    if !view.done() || reply.end != End::Done || !vertical_load {
        return None;
    }
    let (fault, elements) = elements_kept(view, &operation)?;
    let mut za = own.za.clone();
    for e in elements {
        let place = view.place(&operation, e);
        za[place.clone()].copy_from_slice(&view.case.za[place]);
    }
    (za == reply.za).then_some(fault)
}

/// The numbers of the elements that a vertical load of the emulator leaves as
/// they were. On one page these are all after the last active one. Where the
/// slice goes on to the second page, they are those that are not wholly on the
/// first, up to the first active one on the second; and those after the 64
/// bytes of the register in which the last active one is.
fn elements_kept(view: &View, operation: &Flat) -> Option<(Fault, Vec<usize>)> {
    let m = usize::from(operation.element_bytes);
    let (first, last) = (*view.active.first()?, *view.active.last()?);
    let elements = view.elements() as usize;
    let on_first_page = (PAGE - view.start() as u64 % PAGE) as usize;
    if (last + 1) * m <= on_first_page {
        return Some((Fault::TrailingKept, (last + 1..elements).collect()));
    }
    let not_whole = on_first_page / m;
    let on_second = on_first_page.div_ceil(m);
    let mut active = view.active.iter();
    let next = active.find(|&&e| e >= on_second).copied();
    let behind = match next {
        Some(_) => (last * m / 64 + 1) * 64 / m,
        None => elements,
    };
    let between = not_whole.max(first)..next.unwrap_or(elements);
    let kept = between.chain(behind..elements);
    let inactive = kept.filter(|e| !view.active.contains(e));
    Some((Fault::CrossingKept, inactive.collect()))
}

/// Whether the emulator had to abort: an active element starts in memory and
/// ends outside, and it is not the first active one.
pub fn aborts(view: &View, reply: &Reply) -> bool {
    let End::Died { told } = &reply.end else {
        return false;
    };
    let memory = view.memory_start()..view.memory_end();
    let straddles = |&&e: &&usize| {
        let (first, last) = view.ends(e);
        memory.contains(&first) && !memory.contains(&last)
    };
    let straddling = view.active.iter().skip(1).find(straddles);
    let at_end = u128::from(view.address) == view.memory_end();
    told.contains(IMPOSSIBLE) && view.refused(FAULT) && straddling.is_some() && at_end
}
