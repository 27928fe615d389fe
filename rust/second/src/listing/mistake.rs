//! Deliberate mistakes about listings, all of which request 5 invites: about
//! the bytes of a word, the allowance, the checks before the first word, what
//! a refusal ends, and what is then told.
//!
//! Only the comparison runs them, to show that it would notice each.

use super::{allowed_words, check, check_listing, check_settings_and_lengths, run_words, Ran};
use crate::decode::decode;
use crate::execute::{checks, Buffers, Mistake, Settings};
use crate::refusal::Refusal;

/// What the mistake about 32 bits keeps of an allowance.
const LOW_32_BITS: u64 = 0xFFFF_FFFF;

/// One mistake, or none.
#[derive(Clone, Copy, Debug, PartialEq, Eq)]
pub enum ListingMistake {
    None,
    /// The highest byte of a word is first.
    HighestByteFirst,
    /// The refused word counts as done.
    StoppingWordCounted,
    /// One word more than allowed is run.
    AllowanceOneMore,
    /// One word less than allowed is run, of an allowance above 0.
    AllowanceOneLess,
    /// Answer 9 goes before answer 2.
    NineBeforeTwo,
    /// Settings and lengths are not checked where the listing is empty.
    EmptyNotChecked,
    /// Settings and lengths are not checked where the allowance is 0; the
    /// length of the listing is.
    ZeroNotChecked,
    /// Answer 9 is given only where the run comes to the odd bytes, and so
    /// after every whole word was done and with an allowance above their
    /// number.
    NineOnlyWhereReached,
    /// Odd bytes at the end are overlooked.
    NoNine,
    /// A refused word is passed over: it is not counted, the words after it
    /// are run, and the answer is that of the first.
    GoesOnAfterRefusal,
    /// A refusal undoes all that the call did; the count stays.
    LaterWordsUndone,
    /// Only the low 32 bits of the allowance are looked at.
    AllowanceIn32Bits,
    /// The count is that of the words up to the allowance, with one of them
    /// refused too.
    CountIsOfWords,
    /// Answer 7 carries its address and element for the first word only.
    FaultForgotten,
    /// Answers 4 and 5 are given before any word is looked at: before 3, and
    /// where there is no word to run.
    SwitchesCheckedFirst,
    /// The words up to the allowance are all decoded before the first is run:
    /// answer 3 for any of them ends the call with none done.
    UndecodableFoundFirst,
    /// Of the lengths, that of memory is left to the words: where none is run,
    /// memory may go beyond 2^64.
    MemoryEndNotChecked,
}

impl ListingMistake {
    /// Every mistake, with its name.
    pub const NAMED: [(&'static str, ListingMistake); 17] = [
        ("HighestByteFirst", ListingMistake::HighestByteFirst),
        ("StoppingWordCounted", ListingMistake::StoppingWordCounted),
        ("AllowanceOneMore", ListingMistake::AllowanceOneMore),
        ("AllowanceOneLess", ListingMistake::AllowanceOneLess),
        ("NineBeforeTwo", ListingMistake::NineBeforeTwo),
        ("EmptyNotChecked", ListingMistake::EmptyNotChecked),
        ("ZeroNotChecked", ListingMistake::ZeroNotChecked),
        ("NineOnlyWhereReached", ListingMistake::NineOnlyWhereReached),
        ("NoNine", ListingMistake::NoNine),
        ("GoesOnAfterRefusal", ListingMistake::GoesOnAfterRefusal),
        ("LaterWordsUndone", ListingMistake::LaterWordsUndone),
        ("AllowanceIn32Bits", ListingMistake::AllowanceIn32Bits),
        ("CountIsOfWords", ListingMistake::CountIsOfWords),
        ("FaultForgotten", ListingMistake::FaultForgotten),
        ("SwitchesCheckedFirst", ListingMistake::SwitchesCheckedFirst),
        (
            "UndecodableFoundFirst",
            ListingMistake::UndecodableFoundFirst,
        ),
        ("MemoryEndNotChecked", ListingMistake::MemoryEndNotChecked),
    ];

    /// The mistake of that name.
    pub fn named(name: &str) -> Option<ListingMistake> {
        let mut named = ListingMistake::NAMED.iter();
        named.find(|(own, _)| *own == name).map(|&(_, found)| found)
    }

    /// How many words the call takes to be allowed: as many as the caller
    /// says, but for three mistakes.
    pub(super) fn allowance_seen(self, allowance: u64) -> u64 {
        match self {
            ListingMistake::AllowanceOneMore => allowance.saturating_add(1),
            ListingMistake::AllowanceOneLess => allowance.saturating_sub(1),
            ListingMistake::AllowanceIn32Bits => allowance & LOW_32_BITS,
            _ => allowance,
        }
    }

    /// What refuses a call before any word runs: `check`, but for the
    /// mistakes about it.
    pub(super) fn check(
        self,
        settings: &Settings,
        listing: &[u8],
        allowance: u64,
        buffers: &Buffers,
    ) -> Result<(), Refusal> {
        match self {
            ListingMistake::EmptyNotChecked if listing.is_empty() => Ok(()),
            ListingMistake::ZeroNotChecked if allowance == 0 => check_listing(listing),
            ListingMistake::NineBeforeTwo => {
                checks::settings(Mistake::None, settings)?;
                check_listing(listing)?;
                checks::lengths(Mistake::None, settings, buffers)
            }
            ListingMistake::NineOnlyWhereReached | ListingMistake::NoNine => {
                check_settings_and_lengths(settings, buffers)
            }
            ListingMistake::SwitchesCheckedFirst => {
                check(settings, listing, buffers)?;
                checks::switches(settings)
            }
            ListingMistake::UndecodableFoundFirst => {
                check(settings, listing, buffers)?;
                self.decode_all(settings, listing, allowance)
            }
            // From address 0 on, memory of any length ends before 2^64.
            ListingMistake::MemoryEndNotChecked => {
                let at_0 = Settings {
                    memory_address: 0,
                    ..*settings
                };
                check(&at_0, listing, buffers)
            }
            _ => check(settings, listing, buffers),
        }
    }

    /// Answer 3 for any of the allowed words.
    fn decode_all(
        self,
        settings: &Settings,
        listing: &[u8],
        allowance: u64,
    ) -> Result<(), Refusal> {
        let level = checks::settings(Mistake::None, settings)?;
        for word in allowed_words(self, listing, allowance) {
            decode(word, level)?;
        }
        Ok(())
    }

    /// What runs the words: `run_words`, but for the mistakes about what a
    /// refusal ends.
    pub(super) fn run_words(
        self,
        settings: &Settings,
        words: &[u32],
        buffers: &mut Buffers,
    ) -> Ran {
        match self {
            ListingMistake::GoesOnAfterRefusal => pass_over_refused(settings, words, buffers),
            ListingMistake::LaterWordsUndone => run_all_or_none(settings, words, buffers),
            _ => run_words(settings, words, buffers),
        }
    }

    /// What the caller is told of a run: the run itself, but for the mistakes
    /// about that.
    pub(super) fn told(self, ran: Ran, words: &[u32], listing: &[u8], allowance: u64) -> Ran {
        let refused = ran.answer != 0;
        match self {
            ListingMistake::StoppingWordCounted if refused => Ran {
                done: ran.done + 1,
                ..ran
            },
            ListingMistake::CountIsOfWords => Ran {
                done: words.len() as u64,
                ..ran
            },
            ListingMistake::FaultForgotten if ran.done > 0 => Ran {
                address: 0,
                element: 0,
                ..ran
            },
            // With every allowed word done and fewer done than allowed, the
            // run is at the end of the whole words.
            ListingMistake::NineOnlyWhereReached if !refused && ran.done < allowance => {
                match check_listing(listing) {
                    Ok(()) => ran,
                    Err(refusal) => Ran {
                        done: ran.done,
                        ..Ran::refused(refusal)
                    },
                }
            }
            _ => ran,
        }
    }
}

/// Runs the words, and after a refused one those that follow it.
fn pass_over_refused(settings: &Settings, words: &[u32], buffers: &mut Buffers) -> Ran {
    let mut ran = run_words(settings, words, buffers);
    let mut next = ran.done as usize + 1;
    while next < words.len() {
        let later = run_words(settings, &words[next..], buffers);
        ran.done += later.done;
        next += later.done as usize + 1;
    }
    ran
}

/// Runs the words, and with a refusal puts back what the buffers had before.
fn run_all_or_none(settings: &Settings, words: &[u32], buffers: &mut Buffers) -> Ran {
    let (z, za) = (buffers.z.to_vec(), buffers.za.to_vec());
    let memory = buffers.memory.to_vec();
    let ran = run_words(settings, words, buffers);
    if ran.answer != 0 {
        buffers.z.copy_from_slice(&z);
        buffers.za.copy_from_slice(&za);
        buffers.memory.copy_from_slice(&memory);
    }
    ran
}
