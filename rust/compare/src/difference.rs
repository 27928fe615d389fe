//! The first difference, told in full.

use crate::case::{Case, Outcome};
use crate::names::on_or_off;
use second::decode::decode;
use std::fmt::{self, Display, Formatter};

/// How many bytes are shown before and after the first that differs.
const AROUND: usize = 16;

/// Between what and what a difference is.
#[derive(Clone, Copy, Debug, PartialEq, Eq)]
pub struct Sides {
    /// What it comes to.
    pub what: &'static str,
    /// What the outcome that is wanted is called, and the one that is found.
    pub names: [&'static str; 2],
}

impl Sides {
    pub const PROGRAMS: Sides = Sides {
        what: "the two programs differ",
        names: ["second", "archive"],
    };
    pub const BEYOND_CHANGED: Sides = Sides {
        what: "the archive changes bytes beyond the vector length",
        names: ["kept", "archive"],
    };
    pub const BEYOND_MATTERS: Sides = Sides {
        what: "the archive does otherwise with all bytes beyond the vector length inverted, \
               which are shown turned back",
        names: ["archive", "inverted"],
    };
    pub const SINGLE_CALLS: Sides = Sides {
        what: "the listing ends otherwise than single calls of the archive one after another",
        names: ["single", "listing"],
    };
    pub const RULES: Sides = Sides {
        what: "answers 1, 2 and 9 are not given as the rules say",
        names: ["rules", "archive"],
    };
}

/// A case on which two outcomes differ that must not.
pub struct Difference {
    /// The number of the case, the first being 1.
    pub number: u64,
    pub sides: Sides,
    pub case: Case,
    pub wanted: Outcome,
    pub found: Outcome,
}

impl Display for Difference {
    fn fmt(&self, f: &mut Formatter) -> fmt::Result {
        self.write_head(f, "case")?;
        self.write_word(f)?;
        self.write_answers(f)?;
        self.write_state(f)
    }
}

impl Difference {
    /// Where it is, `what` being what is counted, and the settings.
    pub fn write_head(&self, f: &mut Formatter, what: &str) -> fmt::Result {
        let (number, sides) = (self.number, self.sides.what);
        writeln!(f, "DIFFERENCE in {what} {number}: {sides}")?;
        self.write_settings(f)
    }

    /// The registers, and the buffers that differ.
    pub fn write_state(&self, f: &mut Formatter) -> fmt::Result {
        self.write_registers(f)?;
        self.write_buffers(f)
    }

    /// What was answered on both sides, the same or not.
    pub fn write_answers(&self, f: &mut Formatter) -> fmt::Result {
        let (wanted, found) = (&self.wanted, &self.found);
        let [one, other] = self.sides.names;
        writeln!(
            f,
            "answer: {one} {}, {other} {}",
            wanted.answer, found.answer
        )?;
        writeln!(
            f,
            "address: {one} {:016X}, {other} {:016X}",
            wanted.address, found.address
        )?;
        writeln!(
            f,
            "element: {one} {}, {other} {}",
            wanted.element, found.element
        )
    }

    fn write_settings(&self, f: &mut Formatter) -> fmt::Result {
        let case = &self.case;
        let settings = &case.settings;
        writeln!(
            f,
            "settings: vector length {} in buffers for {}, level {}, streaming {}, ZA {}, memory address {:016X}, stack check {}",
            settings.vector_bytes,
            settings.largest_vector_bytes,
            settings.level,
            on_or_off(settings.streaming),
            on_or_off(settings.za_on),
            settings.memory_address,
            on_or_off(settings.stack_check)
        )?;
        writeln!(
            f,
            "lengths: X {}, Z {}, P {}, ZA {}, memory {}",
            case.x.len(),
            case.z.len(),
            case.p.len(),
            case.za.len(),
            case.memory.len()
        )
    }

    /// The word and what the second program decodes it to at the highest
    /// level.
    fn write_word(&self, f: &mut Formatter) -> fmt::Result {
        writeln!(f, "word: {:08X}", self.case.word)?;
        match decode(self.case.word, 3) {
            Ok(operation) => writeln!(f, "at level 3: {operation:?}"),
            Err(_) => writeln!(f, "at level 3: no encoding"),
        }
    }

    /// All of X and P as the case has them.
    fn write_registers(&self, f: &mut Formatter) -> fmt::Result {
        for (first, row) in self.case.x.chunks(4).enumerate() {
            write!(f, "X{:<2}", 4 * first)?;
            for value in row {
                write!(f, " {value:016X}")?;
            }
            writeln!(f)?;
        }
        let register = self.apart() / 8;
        for (number, bytes) in self.case.p.chunks(register).enumerate() {
            writeln!(f, "P{number:<2}{}", hexadecimal(bytes))?;
        }
        Ok(())
    }

    fn write_buffers(&self, f: &mut Formatter) -> fmt::Result {
        let (case, wanted, found) = (&self.case, &self.wanted, &self.found);
        if wanted.x != found.x {
            let [_, name] = self.sides.names;
            writeln!(f, "X is changed by {name}: {:X?}", found.x)?;
        }
        let apart = self.apart();
        self.write_buffer(f, "P", apart / 8, [&case.p, &wanted.p, &found.p])?;
        self.write_buffer(f, "Z", apart, [&case.z, &wanted.z, &found.z])?;
        self.write_buffer(f, "ZA", apart, [&case.za, &wanted.za, &found.za])?;
        let memories = [&case.memory[..], &wanted.memory, &found.memory];
        self.write_buffer(f, "memory", 1, memories)
    }

    /// How far apart vectors start, or what to take for it where that is no
    /// length.
    fn apart(&self) -> usize {
        self.case.settings.largest_vector_bytes.clamp(8, 256) as usize
    }

    /// A buffer before the call and after it on both sides, around the first
    /// byte that differs. `unit` is how far apart its registers start.
    fn write_buffer(
        &self,
        f: &mut Formatter,
        name: &str,
        unit: usize,
        states: [&[u8]; 3],
    ) -> fmt::Result {
        let [before, wanted, found] = states;
        let differs = |at: &usize| wanted[*at] != found[*at];
        let places: Vec<usize> = (0..wanted.len()).filter(differs).collect();
        let (Some(first), Some(last)) = (places.first(), places.last()) else {
            return Ok(());
        };
        writeln!(f, "{name}: {} bytes differ", places.len())?;
        for (end, place) in [("first", first), ("last", last)] {
            writeln!(
                f,
                "  {end}: {place}, byte {} of number {}",
                place % unit,
                place / unit
            )?;
        }
        let shown = first.saturating_sub(AROUND)..(first + AROUND).min(before.len());
        writeln!(f, "  from byte {} on:", shown.start)?;
        let [one, other] = self.sides.names;
        for (name, bytes) in [("before", before), (one, wanted), (other, found)] {
            writeln!(f, "  {name:<8}{}", hexadecimal(&bytes[shown.clone()]))?;
        }
        Ok(())
    }
}

fn hexadecimal(bytes: &[u8]) -> String {
    bytes.iter().map(|byte| format!(" {byte:02X}")).collect()
}
