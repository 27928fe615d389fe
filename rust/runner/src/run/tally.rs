//! What a run came to.

use super::{Checked, NotAllowed};
use crate::machine::{Execution, Machine, MEMORY_ROW};
use crate::script::Word;
use crate::wording::counted;
use sme_move::Refusal;
use std::collections::BTreeSet;

#[derive(Default)]
pub struct Tally {
    pub words: usize,
    pub done: usize,
    pub expectations: usize,
    /// Expectations that are not met.
    pub unmet: usize,
    /// Refused words that no expectation allows, where that counts.
    pub not_allowed: usize,
    /// The line and the headline of the first of either.
    pub first_failure: Option<(usize, String)>,
    /// The vector registers, and the rows of memory, that words changed, where every word is shown.
    pub registers: BTreeSet<usize>,
    pub memory_rows: BTreeSet<usize>,
}

impl Tally {
    /// Counts so many words that were done.
    pub fn done(&mut self, words: usize) {
        self.words += words;
        self.done += words;
    }

    /// Counts a refused word. Where the run is strict, that is a failure unless an expectation allows it.
    pub fn refused(
        &mut self,
        line: usize,
        word: Word,
        refusal: Refusal,
        strict: bool,
    ) -> Option<NotAllowed> {
        self.words += 1;
        if !strict || word.answer_expected {
            return None;
        }
        self.not_allowed += 1;
        let (number, word) = (self.words, word.word);
        let headline =
            format!("word {number}, {word:08X}, is refused, and no 'expect answer' allows it");
        self.fail(line, &headline);
        Some(NotAllowed {
            line,
            headline,
            refusal,
        })
    }

    pub fn expectation(&mut self, checked: &Checked) {
        self.expectations += 1;
        if checked.difference.is_some() {
            self.unmet += 1;
            self.fail(checked.line, &checked.headline());
        }
    }

    fn fail(&mut self, line: usize, headline: &str) {
        let failure = || (line, headline.to_string());
        self.first_failure.get_or_insert_with(failure);
    }

    /// Takes in what a word changed.
    pub fn changes(&mut self, execution: &Execution, machine: &Machine) {
        let apart = machine.settings.largest_vector_bytes as usize;
        let (before, after) = (&execution.state_before.z, &machine.state.z);
        self.registers.extend(changed(before, after, apart));
        let (before, after) = (&execution.memory_before, execution.memory_after(machine));
        let first = execution.memory_start / MEMORY_ROW;
        let rows = changed(before, after, MEMORY_ROW).map(|row| first + row);
        self.memory_rows.extend(rows);
    }

    /// The last line of a report.
    pub fn summary(&self) -> String {
        let (words, done) = (counted(self.words, "word"), self.done);
        let mut line = format!("{words}, {done} done, {} refused", self.words - done);
        if self.not_allowed > 0 {
            line += &format!(" ({} not allowed)", self.not_allowed);
        }
        if self.expectations > 0 {
            let (all, unmet) = (counted(self.expectations, "expectation"), self.unmet);
            line += &format!(
                "; {all}, {} met, {unmet} not met",
                self.expectations - unmet
            );
        }
        line
    }
}

/// The numbers of the parts of this length that changed.
fn changed<'a>(
    before: &'a [u8],
    after: &'a [u8],
    length: usize,
) -> impl Iterator<Item = usize> + 'a {
    let parts = before.chunks(length).zip(after.chunks(length)).enumerate();
    parts
        .filter(|(_, (before, after))| before != after)
        .map(|(number, _)| number)
}
