//! The first difference, told in full.

use super::call::{Call, Outcome};
use super::rules::Verdict;
use super::state::State;

/// A call on which the two programs differ, or on which the rules have
/// another answer than both.
pub struct Difference {
    pub call: Call,
    pub before: State,
    pub archive: Outcome,
    pub second: Outcome,
    pub verdict: Verdict,
}

impl Difference {
    /// `input` says where the call comes from.
    pub fn told(&self, input: &str) -> String {
        format!(
            "DIFFERENCE on {input}: {}\nbefore:  {}\narchive: {}\nsecond:  {}\nrules:   answer {}, {:?}",
            self.call,
            told_state(&self.before),
            told_outcome(&self.archive),
            told_outcome(&self.second),
            self.verdict.answer(),
            self.verdict,
        )
    }
}

fn told_outcome(outcome: &Outcome) -> String {
    let Outcome {
        answer,
        tile,
        after,
    } = outcome;
    format!("answer {answer}, tile {tile}, {}", told_state(after))
}

/// The count and all numbers, those behind the array's end after a bar.
fn told_state(state: &State) -> String {
    let (array, behind) = state.numbers.split_at(state.length);
    let [array, behind] = [array, behind].map(told_numbers);
    let State { count, length, .. } = state;
    format!("count {count}, array of {length} numbers: {array} | {behind}")
}

fn told_numbers(numbers: &[u64]) -> String {
    let told = |number: &u64| match number {
        0..=0xFFFF => number.to_string(),
        _ => format!("0x{number:X}"),
    };
    numbers.iter().map(told).collect::<Vec<_>>().join(" ")
}
