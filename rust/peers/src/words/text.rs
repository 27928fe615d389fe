//! What LLVM's text of an instruction says, as the eleven numbers of the
//! unit's operations.

use sme_move::{Fields, Kind};

/// What a text says.
#[derive(Clone, Copy, Debug, PartialEq, Eq)]
pub enum Reading {
    /// One of the unit's instructions.
    Ours(Fields),
    /// Another instruction.
    Other,
    /// A move, load or store that is not written as any that is known here.
    /// It may be one of the unit's, so it must not pass for another.
    Unclear,
}

/// The letters of the element sizes behind a point.
const SIZES: [(&str, u8); 5] = [("b", 1), ("h", 2), ("s", 4), ("d", 8), ("q", 16)];
/// The same at the end of the name of a load or store.
const ACCESS_SIZES: [(&str, u8); 5] = [("b", 1), ("h", 2), ("w", 4), ("d", 8), ("q", 16)];

/// Reads a text: a name, a tab and the operands. Versions of LLVM differ in
/// where they put spaces, which mean nothing.
pub fn read(text: &str) -> Reading {
    let (name, operands) = text.split_once('\t').unwrap_or((text, ""));
    let operands: String = operands.split(' ').collect();
    let cursor = Cursor { rest: &operands };
    let read = match name {
        "mov" | "mova" => {
            let array = || cursor.move_from_array(Kind::MovaFromArray);
            let from_tile = || cursor.move_from_tile().or_else(array);
            cursor.move_to_tile().or_else(from_tile)
        }
        "movaz" => {
            let array = || cursor.move_from_array(Kind::MovazFromArray);
            cursor.zero_from_tile().or_else(array)
        }
        _ => match access_of(name) {
            Some((kind, m)) => cursor.access(kind, m),
            None => return Reading::Other,
        },
    };
    match read {
        Some(fields) => Reading::Ours(fields),
        None if name.starts_with("mov") && of_other_groups(&operands) => Reading::Other,
        None => Reading::Unclear,
    }
}

/// The kind and the element bytes that the name of a load or store gives.
fn access_of(name: &str) -> Option<(Kind, u8)> {
    let (kind, letter) = match name.split_at_checked(3)? {
        ("ld1", letter) => (Kind::Ld1, letter),
        ("st1", letter) => (Kind::St1, letter),
        _ => return None,
    };
    let (_, m) = ACCESS_SIZES.iter().find(|(own, _)| *own == letter)?;
    Some((kind, *m))
}

/// Whether a move's operands are groups of vector registers with either
/// several slices of a tile, which have a range in brackets, or the array as
/// what is written. The unit has none of these.
fn of_other_groups(operands: &str) -> bool {
    let slices = operands.starts_with("za") || operands.contains("},za");
    operands.contains('{') && (slices && operands.contains(':') || operands.starts_with("za.d[w"))
}

/// A slice of a tile, as each instruction that has one writes it.
struct Slice {
    element_bytes: u8,
    direction: u8,
    tile: u8,
    offset: u8,
    index: u8,
}

impl Slice {
    fn fields(&self, kind: Kind) -> Fields {
        Fields {
            kind: kind.number(),
            element_bytes: self.element_bytes,
            direction: self.direction,
            tile: self.tile,
            offset: self.offset,
            index: self.index,
            ..Fields::default()
        }
    }
}

/// What of the operands is still to be read.
#[derive(Clone, Copy)]
struct Cursor<'a> {
    rest: &'a str,
}

impl Cursor<'_> {
    /// za2v.s[w13,1],p3/m,z5.s
    fn move_to_tile(mut self) -> Option<Fields> {
        let slice = self.slice()?;
        let predicate = self.after(",p")?;
        let vector = self.after("/m,z")?;
        self.sized_end(slice.element_bytes)?;
        Some(Fields {
            predicate,
            vector,
            registers: 1,
            ..slice.fields(Kind::MovaToTile)
        })
    }

    /// z5.s,p3/m,za2v.s[w13,1]
    fn move_from_tile(mut self) -> Option<Fields> {
        let (vector, element_bytes) = self.vector()?;
        let predicate = self.after(",p")?;
        self.skip("/m,")?;
        let slice = self.slice()?;
        self.end()?;
        (slice.element_bytes == element_bytes).then_some(Fields {
            predicate,
            vector,
            registers: 1,
            ..slice.fields(Kind::MovaFromTile)
        })
    }

    /// z31.d,za6v.d[w15,1]
    fn zero_from_tile(mut self) -> Option<Fields> {
        let (vector, element_bytes) = self.vector()?;
        self.skip(",")?;
        let slice = self.slice()?;
        self.end()?;
        (slice.element_bytes == element_bytes).then_some(Fields {
            vector,
            registers: 1,
            ..slice.fields(Kind::MovazFromTile)
        })
    }

    /// {z10.d,z11.d},za.d[w8,3,vgx2] or {z28.d-z31.d},za.d[w10,7,vgx4]
    fn move_from_array(mut self, kind: Kind) -> Option<Fields> {
        let vector = self.after("{z")?;
        let range = self.skip(".d-z").is_some();
        let last = if range {
            self.number()?
        } else {
            self.after(".d,z")?
        };
        let index = self.after(".d},za.d[w")?;
        let offset = self.after(",")?;
        let registers = self.after(",vgx")?;
        self.skip("]")?;
        self.end()?;
        let as_told = last.checked_sub(vector)? + 1 == registers && (range || registers == 2);
        as_told.then_some(Fields {
            kind: kind.number(),
            offset,
            index,
            vector,
            registers,
            ..Fields::default()
        })
    }

    /// {za15h.q[w12,0]},p0/z,[sp,x15,lsl#4], for a store without /z. An offset
    /// register that is missing is the one that reads as zero.
    fn access(mut self, kind: Kind, element_bytes: u8) -> Option<Fields> {
        self.skip("{")?;
        let slice = self.slice()?;
        let predicate = self.after("},p")?;
        if kind == Kind::Ld1 {
            self.skip("/z")?;
        }
        self.skip(",[")?;
        let base = self.register("sp")?;
        let offset_register = match self.skip(",") {
            Some(()) => self.offset_register(element_bytes)?,
            None => 31,
        };
        self.skip("]")?;
        self.end()?;
        (slice.element_bytes == element_bytes).then_some(Fields {
            predicate,
            base,
            offset_register,
            ..slice.fields(kind)
        })
    }

    /// The offset register of a load or store, which is shifted by what makes
    /// it a number of elements; no shift is written for bytes.
    fn offset_register(&mut self, element_bytes: u8) -> Option<u8> {
        let register = self.register("xzr")?;
        let shift = match self.skip(",lsl#") {
            Some(()) => u32::from(self.number()?),
            None => 0,
        };
        (u32::from(element_bytes) == 1 << shift).then_some(register)
    }

    /// za2v.s[w13,1]
    fn slice(&mut self) -> Option<Slice> {
        let tile = self.after("za")?;
        let direction = self.one_of(&[("h", 0), ("v", 1)])?;
        self.skip(".")?;
        let element_bytes = self.one_of(&SIZES)?;
        let index = self.after("[w")?;
        let offset = self.after(",")?;
        self.skip("]")?;
        Some(Slice {
            element_bytes,
            direction,
            tile,
            offset,
            index,
        })
    }

    /// z5.s: the register's number and the element bytes.
    fn vector(&mut self) -> Option<(u8, u8)> {
        let number = self.after("z")?;
        self.skip(".")?;
        Some((number, self.one_of(&SIZES)?))
    }

    /// x0 to x30, or number 31 by its name.
    fn register(&mut self, thirty_one: &str) -> Option<u8> {
        if self.skip(thirty_one).is_some() {
            return Some(31);
        }
        self.after("x").filter(|&number| number < 31)
    }

    /// A number that follows these letters.
    fn after(&mut self, letters: &str) -> Option<u8> {
        self.skip(letters)?;
        self.number()
    }

    /// A decimal number, which has no zero before it.
    fn number(&mut self) -> Option<u8> {
        let digits = self.rest.bytes().take_while(u8::is_ascii_digit).count();
        let (number, rest) = self.rest.split_at(digits);
        self.rest = rest;
        if number.len() > 1 && number.starts_with('0') {
            return None;
        }
        number.parse().ok()
    }

    /// What goes with one of these letters.
    fn one_of(&mut self, choices: &[(&str, u8)]) -> Option<u8> {
        let mut choices = choices.iter();
        let found = choices.find_map(|(letters, value)| Some((self.skip(letters)?, *value)));
        found.map(|((), value)| value)
    }

    /// .s and nothing after it, for these element bytes.
    fn sized_end(&mut self, element_bytes: u8) -> Option<()> {
        self.skip(".")?;
        let size = self.one_of(&SIZES)?;
        self.end()?;
        (size == element_bytes).then_some(())
    }

    /// Goes on behind these letters, if they are next.
    fn skip(&mut self, letters: &str) -> Option<()> {
        self.rest = self.rest.strip_prefix(letters)?;
        Some(())
    }

    fn end(&self) -> Option<()> {
        self.rest.is_empty().then_some(())
    }
}
