//! What the command line of the comparison of listings asks for.

use crate::command::with_mistakes;
use crate::seeded::{self, Mistaken};
use second::listing::ListingMistake;

/// The seed of the run, the number of its listings, and the mistake to be
/// noticed.
pub type Arguments = seeded::Arguments<ListingMistake>;

impl Mistaken for ListingMistake {
    const NONE: ListingMistake = ListingMistake::None;

    fn named(name: &str) -> Option<ListingMistake> {
        ListingMistake::named(name)
    }
}

/// How to call the program, with the names of the mistakes.
pub fn usage() -> String {
    with_mistakes(
        "usage: listings [--seed S] [--count N] [--mistake NAME]\n\
         Compares, on all cores, the archive's call that runs a listing with its single calls one\n\
         after another and with the second program, on N random listings (200000) of up to 200\n\
         words: answer, address, element, words done and every buffer. Status 1 and the first\n\
         difference in full if there is one; also if something that can occur did not. With a\n\
         mistake the second program makes it, and a difference must be found.",
        &ListingMistake::NAMED,
    )
}
