//! Failures, and what a run came to, without all that led to it.

use super::item;
use crate::machine::Machine;
use crate::run::{Checked, Executed, NotAllowed, Observer, Tally};
use crate::verdict;
use crate::wording;
use std::io::{self, Write};

/// Prints failures and the last line only.
pub struct Brief<'a, W> {
    pub out: W,
    pub name: &'a str,
}

impl<W: Write> Observer for Brief<'_, W> {
    fn shows_words(&self) -> bool {
        false
    }

    fn start(&mut self, _: &Machine) -> io::Result<()> {
        Ok(())
    }

    fn word(&mut self, _: &Executed, _: &Machine) -> io::Result<()> {
        Ok(())
    }

    fn not_allowed(&mut self, failure: &NotAllowed) -> io::Result<()> {
        refusal(&mut self.out, self.name, failure)
    }

    fn expectation(&mut self, checked: &Checked) -> io::Result<()> {
        difference(&mut self.out, self.name, checked)
    }

    fn end(&mut self, tally: &Tally, _: &Machine) -> io::Result<()> {
        writeln!(self.out, "{}", tally.summary())
    }
}

/// Prints that a word is refused, where that is a failure.
pub fn refusal(out: &mut impl Write, name: &str, failure: &NotAllowed) -> io::Result<()> {
    writeln!(out, "{name}:{}: {}", failure.line, failure.headline)?;
    item(out, "answer", &[wording::answer(Err(failure.refusal))])
}

/// Prints an expectation that is not met, and the first difference.
pub fn difference(out: &mut impl Write, name: &str, checked: &Checked) -> io::Result<()> {
    let Some(difference) = &checked.difference else {
        return Ok(());
    };
    writeln!(out, "{name}:{}: {}", checked.line, checked.headline())?;
    for (name, text) in verdict::lines(checked.expectation, difference) {
        item(out, name, &[text])?;
    }
    Ok(())
}
