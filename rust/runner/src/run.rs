//! Running a script, and who is told of it.

mod tally;

use crate::machine::{Execution, Machine};
use crate::script::{listing_of, Action, Expectation, Script, Step, Word, WORD_BYTES};
use crate::verdict::{self, Difference};
use sme_move::{Refusal, Stopped};
use std::io;

pub use tally::Tally;

/// A word that was just executed.
pub struct Executed<'a> {
    /// Its number among the words, from 1.
    pub number: usize,
    pub line: usize,
    pub file_byte: Option<usize>,
    pub execution: &'a Execution,
    /// Why its refusal is a failure, if it is one.
    pub failure: Option<&'a NotAllowed>,
}

/// A refused word that no expectation allows, where that counts.
pub struct NotAllowed {
    pub line: usize,
    pub headline: String,
    pub refusal: Refusal,
}

/// An expectation that was just checked.
pub struct Checked<'a> {
    pub line: usize,
    pub expectation: &'a Expectation,
    pub difference: Option<Difference>,
}

/// Shows a run while it goes on.
pub trait Observer {
    /// Whether it shows every word. For one that does not, words that follow each other run in one call up to the next
    /// refused one, since nobody asks what was there before each of them.
    fn shows_words(&self) -> bool;
    fn start(&mut self, machine: &Machine) -> io::Result<()>;
    /// Every word, for an observer that shows them.
    fn word(&mut self, executed: &Executed, machine: &Machine) -> io::Result<()>;
    /// A failure, after its word if that was shown.
    fn not_allowed(&mut self, failure: &NotAllowed) -> io::Result<()>;
    fn expectation(&mut self, checked: &Checked) -> io::Result<()>;
    fn end(&mut self, tally: &Tally, machine: &Machine) -> io::Result<()>;
}

/// Runs a script to its end, whatever fails on the way. Where it is strict, a refusal that no expectation allows
/// is a failure.
pub fn run(
    observer: &mut dyn Observer,
    script: &Script,
    strict: bool,
) -> io::Result<(Machine, Tally)> {
    let mut run = Run {
        machine: Machine::new(script),
        tally: Tally::default(),
        answer: Ok(()),
        observer,
        strict,
    };
    run.observer.start(&run.machine)?;
    let are_words = |one: &Step, next: &Step| one.word().is_some() && next.word().is_some();
    for steps in script.steps.chunk_by(are_words) {
        match steps[0].word() {
            Some(_) if !run.observer.shows_words() => run.words(steps)?,
            _ => steps.iter().try_for_each(|step| run.step(step))?,
        }
    }
    run.observer.end(&run.tally, &run.machine)?;
    Ok((run.machine, run.tally))
}

/// A run that goes on.
struct Run<'a> {
    machine: Machine,
    tally: Tally,
    /// What the word before was answered.
    answer: Result<(), Refusal>,
    observer: &'a mut dyn Observer,
    strict: bool,
}

impl Run<'_> {
    fn step(&mut self, step: &Step) -> io::Result<()> {
        match &step.action {
            Action::Word(word) => self.word(step, *word)?,
            Action::Expect(expectation) => self.expectation(step.line, expectation)?,
            contents => self.machine.set(contents),
        }
        Ok(())
    }

    /// Executes a word by a call of its own, and shows it.
    fn word(&mut self, step: &Step, word: Word) -> io::Result<()> {
        let execution = self.machine.execute(word.word);
        self.tally.changes(&execution, &self.machine);
        let failure = match execution.answer {
            Ok(()) => {
                self.done(1);
                None
            }
            Err(refusal) => self.refused(step, refusal),
        };
        let executed = Executed {
            number: self.tally.words,
            line: step.line,
            file_byte: word.file_byte,
            execution: &execution,
            failure: failure.as_ref(),
        };
        self.observer.word(&executed, &self.machine)?;
        self.tell(failure)
    }

    /// Runs steps that are all words, in one call up to the next refused word, and goes on behind that with another:
    /// every refusal is told as if each word had a call of its own.
    fn words(&mut self, steps: &[Step]) -> io::Result<()> {
        let listing = listing_of(steps);
        let before = self.machine.state.clone();
        let mut next = 0;
        while next < steps.len() {
            let result = self.machine.run(&listing[next * WORD_BYTES..]);
            let (Ok(done) | Err(Stopped { done, .. })) = result;
            self.done(done);
            next += done;
            // A call that is refused before its first word, since memory ends too high, is that word's answer too.
            if let Err(Stopped { refusal, .. }) = result {
                let failure = self.refused(&steps[next], refusal);
                self.tell(failure)?;
                next += 1;
            }
        }
        self.machine.assert_kept(&before, "one of several words");
        Ok(())
    }

    /// Takes in so many words that were done.
    fn done(&mut self, words: usize) {
        self.answer = Ok(());
        self.tally.done(words);
    }

    /// Takes in a refused word, and gives back why that is a failure, if it is one.
    fn refused(&mut self, step: &Step, refusal: Refusal) -> Option<NotAllowed> {
        let word = step.word().expect("only a word is refused");
        self.answer = Err(refusal);
        self.tally.refused(step.line, word, refusal, self.strict)
    }

    fn tell(&mut self, failure: Option<NotAllowed>) -> io::Result<()> {
        match failure {
            Some(failure) => self.observer.not_allowed(&failure),
            None => Ok(()),
        }
    }

    fn expectation(&mut self, line: usize, expectation: &Expectation) -> io::Result<()> {
        let checked = Checked {
            line,
            expectation,
            difference: verdict::difference(expectation, &self.machine, self.answer),
        };
        self.tally.expectation(&checked);
        self.observer.expectation(&checked)
    }
}

impl Checked<'_> {
    /// What the check came to, in a sentence.
    pub fn headline(&self) -> String {
        let about = verdict::about(self.expectation);
        match self.difference {
            None => format!("{about} is as expected"),
            Some(_) => format!("{about} is not as expected"),
        }
    }
}

#[cfg(test)]
mod tests;
