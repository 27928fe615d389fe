//! What the command line of the comparison of held tiles asks for.

use crate::command::with_mistakes;
use crate::seeded::{self, Mistaken};
use second::held::HeldMistake;

/// The seed of the run, the number of its random arrays, and the mistake to
/// be noticed.
pub type Arguments = seeded::Arguments<HeldMistake>;

impl Mistaken for HeldMistake {
    const NONE: HeldMistake = HeldMistake::None;

    fn named(name: &str) -> Option<HeldMistake> {
        HeldMistake::named(name)
    }
}

/// How to call the program, with the names of the mistakes.
pub fn usage() -> String {
    with_mistakes(
        "usage: tiles [--seed S] [--count N] [--mistake NAME]\n\
         Compares the archive with the second program in taking a tile and giving one up, on all\n\
         cores: from N random arrays (200000), most of them bad, and from every set of tiles that\n\
         can be held, in two orders, each size asked for and each tile given up. Status 1 and the\n\
         first difference in full if there is one. With a mistake the second program makes it, and\n\
         a difference must be found.",
        &HeldMistake::NAMED,
    )
}
