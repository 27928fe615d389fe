//! What stops runs.

use crate::listings::ended::Ended;
use crate::listings::listing::Listing;
use crate::listings::rules::{BEFORE_WORDS, ODD_LENGTH};
use crate::names::FAULT;
use sme_move::Refusal;

/// The stops, answer 0 in its two kinds.
pub const STOPS: [Stop; 10] = [
    Stop::End,
    Stop::Allowance,
    Stop::Refusal(Refusal::BadSettings.number()),
    Stop::Refusal(Refusal::BadLengths.number()),
    Stop::Refusal(Refusal::Undecodable.number()),
    Stop::Refusal(Refusal::StreamingOff.number()),
    Stop::Refusal(Refusal::ZaOff.number()),
    Stop::Refusal(Refusal::StackMisaligned.number()),
    Stop::Refusal(FAULT.number()),
    Stop::Refusal(ODD_LENGTH),
];

/// What stopped a run.
#[derive(Clone, Copy, Debug, PartialEq, Eq)]
pub enum Stop {
    /// Every word was done.
    End,
    /// As many words were done as are allowed, and more are there.
    Allowance,
    /// An answer but 0.
    Refusal(u32),
}

impl Stop {
    /// None where answer 0 was given too early.
    pub fn of(listing: &Listing, ended: &Ended) -> Option<Stop> {
        match ended.outcome.answer {
            0 if ended.done == listing.words().len() as u64 => Some(Stop::End),
            0 if ended.done == listing.allowance => Some(Stop::Allowance),
            0 => None,
            answer => Some(Stop::Refusal(answer)),
        }
    }

    /// Its number among all, if it is one of them.
    pub fn number(self) -> Option<usize> {
        STOPS.iter().position(|own| *own == self)
    }

    pub fn name(self) -> String {
        match self {
            Stop::End => "0 at the end".to_string(),
            Stop::Allowance => "0 at the allowance".to_string(),
            Stop::Refusal(answer) => answer.to_string(),
        }
    }

    /// Whether words may be done before it: not with what is the same for all
    /// words, or given before any.
    pub fn can_come_later(self) -> bool {
        let switches = [Refusal::StreamingOff, Refusal::ZaOff].map(Refusal::number);
        match self {
            Stop::Refusal(answer) => !BEFORE_WORDS.contains(&answer) && !switches.contains(&answer),
            _ => true,
        }
    }

    /// The place of its answer among those that are given before any word.
    pub fn before_words(self) -> Option<usize> {
        let is = |own: &u32| self == Stop::Refusal(*own);
        BEFORE_WORDS.iter().position(is)
    }
}
