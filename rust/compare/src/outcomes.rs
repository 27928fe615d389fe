//! All that is made of one case and compared.

use crate::beyond::Beyond;
use crate::case::{Case, Function, Outcome};
use crate::difference::Sides;
use second::execute::Mistake;

/// The outcomes of one case. Their room is used again for the next.
pub struct Outcomes {
    /// What is called as the archive: its function, but for tests.
    unit: Function,
    second: Outcome,
    archive: Outcome,
    /// The archive's with the bytes beyond the vector length inverted.
    inverted: Outcome,
}

/// Two outcomes that differ and must not: the one that is wanted, and the one
/// that is found.
pub type Differing = (Sides, Outcome, Outcome);

impl Outcomes {
    pub fn new(unit: Function) -> Outcomes {
        Outcomes {
            unit,
            second: Outcome::default(),
            archive: Outcome::default(),
            inverted: Outcome::default(),
        }
    }

    /// What both programs came to, after a case without a difference.
    pub fn agreed(&self) -> &Outcome {
        &self.archive
    }

    /// Runs a case through both programs, and tells the first difference. In
    /// buffers for longer vectors the archive runs it twice: it is to leave the
    /// bytes beyond the vector length, and do the same whatever they are.
    pub fn compare(&mut self, case: &Case, mistake: Mistake) -> Option<Differing> {
        let Outcomes {
            unit,
            second,
            archive,
            inverted,
        } = self;
        second.run_second(case, mistake);
        archive.run(*unit, case);
        if !second.agrees(archive) {
            return Some((Sides::PROGRAMS, second.clone(), archive.clone()));
        }
        let beyond = Beyond::of(&case.settings)?;
        if !beyond.kept(case, archive) {
            let mut kept = archive.clone();
            beyond.restore(case, &mut kept);
            return Some((Sides::BEYOND_CHANGED, kept, archive.clone()));
        }
        inverted.run_inverted(*unit, case, beyond);
        let same = archive.agrees(inverted);
        (!same).then(|| (Sides::BEYOND_MATTERS, archive.clone(), inverted.clone()))
    }
}

#[cfg(test)]
mod tests {
    use super::*;
    use crate::case::Answered;
    use crate::difference::Difference;
    use crate::worked::case_within;
    use sme_move::{numbers, Buffers, Settings};

    /// A move and zero of row 0 of the byte tile to vector register 0.
    const WORD: u32 = 0xC002_0200;

    /// The difference that a wrong unit makes on vectors of 16 bytes in buffers
    /// for 64, as it is told.
    fn told(unit: Function, mistake: Mistake) -> (Sides, String) {
        let case = case_within(16, 64, WORD);
        let mut outcomes = Outcomes::new(unit);
        let found = outcomes.compare(&case, mistake).expect("a difference");
        let (sides, wanted, found) = found;
        let difference = Difference {
            number: 1,
            sides,
            case,
            wanted,
            found,
        };
        (sides, difference.to_string())
    }

    #[test]
    fn the_archive_has_no_difference() {
        let mut outcomes = Outcomes::new(numbers::execute);
        let case = case_within(16, 64, WORD);
        assert!(outcomes.compare(&case, Mistake::None).is_none());
        assert_eq!(outcomes.agreed().z[..16], case.za[..16]);
    }

    /// The unit does what the right one does, and clears bytes beyond in the
    /// register.
    fn clearing(settings: Settings, word: u32, buffers: Buffers<'_>) -> Answered {
        buffers.z[16..64].fill(0);
        numbers::execute(settings, word, buffers)
    }

    /// A unit and a second program that agree in being wrong are noticed by the
    /// bytes themselves.
    #[test]
    fn bytes_beyond_that_change_are_told() {
        let (sides, told) = told(clearing, Mistake::BeyondCleared);
        assert_eq!(sides, Sides::BEYOND_CHANGED);
        for part in [
            "DIFFERENCE in case 1: the archive changes bytes beyond the vector length",
            "vector length 16 in buffers for 64",
            "word: C0020200",
            "Z: 48 bytes differ",
            "first: 16, byte 16 of number 0",
            "last: 63, byte 63 of number 0",
            "\n  before  ",
            "\n  kept    ",
            "\n  archive ",
        ] {
            assert!(told.contains(part), "{part} is not in\n{told}");
        }
    }

    /// The unit answers 5 where the first byte of P beyond is zero, which it
    /// is not in the case.
    fn looking(mut settings: Settings, word: u32, buffers: Buffers<'_>) -> Answered {
        settings.za = buffers.p[2] != 0;
        numbers::execute(settings, word, buffers)
    }

    #[test]
    fn bytes_beyond_that_matter_are_told() {
        let (sides, told) = told(looking, Mistake::None);
        assert_eq!(sides, Sides::BEYOND_MATTERS);
        for part in [
            "DIFFERENCE in case 1: the archive does otherwise with all bytes beyond",
            "answer: archive 0, inverted 5",
            "Z: 16 bytes differ",
            "ZA: 16 bytes differ",
        ] {
            assert!(told.contains(part), "{part} is not in\n{told}");
        }
    }

    /// What a unit writes beyond in the second call alone is told too.
    #[test]
    fn bytes_beyond_that_are_written_by_what_is_there_are_told() {
        let unit: Function = |settings, word, buffers| {
            buffers.za[63 * 64] |= 1;
            numbers::execute(settings, word, buffers)
        };
        let mut case = case_within(16, 64, WORD);
        case.za[63 * 64] |= 1;
        let mut outcomes = Outcomes::new(unit);
        let found = outcomes.compare(&case, Mistake::None);
        let (sides, wanted, found) = found.expect("a difference");
        assert_eq!(sides, Sides::BEYOND_MATTERS);
        assert!(wanted.z == found.z && wanted.za != found.za);
    }

    #[test]
    fn programs_that_differ_are_told_as_such() {
        let (sides, told) = told(numbers::execute, Mistake::BeyondCleared);
        assert_eq!(sides, Sides::PROGRAMS);
        assert!(told.starts_with("DIFFERENCE in case 1: the two programs differ\n"));
        assert!(told.contains("answer: second 0, archive 0"));
        assert!(told.contains("\n  second  "));
    }

    /// The element alone is enough of a difference, between the programs and
    /// by what is beyond.
    #[test]
    fn another_element_is_told() {
        let (sides, told) = told(numbers::execute, Mistake::ElementLeftOver);
        assert_eq!(sides, Sides::PROGRAMS);
        assert!(told.contains("\nelement: second 3, archive 0\n"));
        assert!(!told.contains("bytes differ"));
    }

    /// The unit tells an element where the first byte of P beyond is zero.
    fn telling(settings: Settings, word: u32, buffers: Buffers<'_>) -> Answered {
        let element = u64::from(buffers.p[2] == 0);
        let (answer, address, _) = numbers::execute(settings, word, buffers);
        (answer, address, element)
    }

    #[test]
    fn an_element_by_bytes_beyond_is_told() {
        let (sides, told) = told(telling, Mistake::None);
        assert_eq!(sides, Sides::BEYOND_MATTERS);
        assert!(told.contains("\nelement: archive 0, inverted 1\n"));
    }
}
