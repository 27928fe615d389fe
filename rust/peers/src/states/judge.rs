//! Whether the machine and the unit agree on a case, and by which known
//! faults they do not.

use super::faults::{aborts, by_other_register, kept, without_top_byte, Fault};
use super::machine::{End, Reply};
use super::{rules, Unit};
use compare::case::{Case, Outcome};
use compare::names::{number, FAULT};
use compare::rows::{encoding, TABLE};
use compare::view::View;
use sme_move::Refusal;

/// Signals by their numbers (Linux).
const ILLEGAL: u32 = 4;
const BUS: u32 = 7;
const SEGMENT: u32 = 11;

/// What comes of a comparison.
#[derive(Clone, Debug, PartialEq, Eq)]
pub enum Verdict {
    Agree,
    /// These known faults explain every byte.
    Known(Vec<Fault>),
    Differ,
}

/// Compares what the machine made of the case with what the unit did.
pub fn judge(case: &Case, unit: Unit, own: &Outcome, reply: &Reply) -> Verdict {
    let alive = !matches!(reply.end, End::Died { .. });
    let unit_right = refusal_kept(case, own) && rules::hold(&View::new(case, own));
    if !unit_right || alive && reply.x != case.x {
        return Verdict::Differ;
    }
    if same(own, reply) {
        return Verdict::Agree;
    }
    let (faults, twin) = address_faults(case, own);
    let Some(twin) = twin else {
        return explained(case, own, reply, faults);
    };
    let mut outcome = Outcome::default();
    unit.execute(&twin, &mut outcome);
    if same(&outcome, reply) {
        return Verdict::Known(faults);
    }
    explained(&twin, &outcome, reply, faults)
}

fn done(own: &Outcome) -> bool {
    own.answer == number(Ok(()))
}

/// Whether a refusal of the unit left every buffer as it was.
fn refusal_kept(case: &Case, own: &Outcome) -> bool {
    own.x == case.x
        && own.p == case.p
        && (done(own) || own.z == case.z && own.za == case.za && own.memory == case.memory)
}

/// Whether the machine did what the unit's answer says, every byte. After a
/// signal there are no vector registers to compare, and no machine tells the
/// element that faulted.
fn same(own: &Outcome, reply: &Reply) -> bool {
    let (number, address) = match reply.end {
        End::Done => {
            let registers = own.z == reply.z && own.p == reply.p && own.za == reply.za;
            return done(own) && registers && own.memory == reply.memory;
        }
        End::Signal { number, address } => (number, address),
        End::Died { .. } => return false,
    };
    let answered = match Refusal::of_number(own.answer, own.address, own.element) {
        Some(Refusal::Undecodable | Refusal::StreamingOff | Refusal::ZaOff) => number == ILLEGAL,
        Some(Refusal::StackMisaligned) => number == BUS,
        Some(Refusal::OutsideMemory { address: own, .. }) => number == SEGMENT && address == own,
        _ => false,
    };
    answered && own.memory == reply.memory
}

/// The faults that give an access another address or let it go by the stack
/// pointer, with the case that then is executed.
fn address_faults(case: &Case, own: &Outcome) -> (Vec<Fault>, Option<Case>) {
    let view = View::new(case, own);
    let refused = view.refused(Refusal::StackMisaligned) || view.refused(FAULT);
    let (true, Some(operation), Some(row)) = (refused, view.access(), encoding(case.word)) else {
        return (Vec::new(), None);
    };
    let mut faults = Vec::new();
    if rules::stack_misaligned(&view) {
        faults.push(Fault::NoStackCheck);
    }
    if rules::tagged(&view) {
        faults.push(Fault::TopByteIgnored);
    }
    if faults.is_empty() {
        return (faults, None);
    }
    let taken = without_top_byte(view.start() as u64);
    let twin = by_other_register(case, &TABLE[row], &operation, taken);
    (faults, Some(twin))
}

/// What one more fault explains, beside those that did to the address what
/// the case has already.
fn explained(case: &Case, own: &Outcome, reply: &Reply, mut faults: Vec<Fault>) -> Verdict {
    let view = View::new(case, own);
    let found = match kept(&view, own, reply) {
        Some(fault) if own.z == reply.z && own.p == reply.p && own.memory == reply.memory => fault,
        None if aborts(&view, reply) => Fault::StraddlingAborts,
        _ => return Verdict::Differ,
    };
    faults.push(found);
    Verdict::Known(faults)
}
