//! Machines and listings by chance, the same ones every time.

use sme_move::{encode_fields, Fields, Machine, Settings};

/// Vector lengths, each with one that the buffers are laid out for.
const LENGTHS: [(u64, u64); 8] = [
    (16, 16),
    (16, 16),
    (32, 32),
    (256, 256),
    (16, 32),
    (16, 256),
    (64, 128),
    (128, 256),
];

/// Registers for bases, which mostly point into memory, and for offsets, which are mostly small.
const BASES: [u8; 4] = [1, 2, 3, 31];
const OFFSETS: [u8; 4] = [4, 5, 6, 31];

/// Splitmix64: numbers that look like chance.
pub struct Random(pub u64);

impl Random {
    pub fn number(&mut self) -> u64 {
        self.0 = self.0.wrapping_add(0x9E37_79B9_7F4A_7C15);
        let mixed = (self.0 ^ self.0 >> 30).wrapping_mul(0xBF58_476D_1CE4_E5B9);
        let mixed = (mixed ^ mixed >> 27).wrapping_mul(0x94D0_49BB_1331_11EB);
        mixed ^ mixed >> 31
    }

    pub fn below(&mut self, limit: u64) -> u64 {
        self.number() % limit
    }

    pub fn one_in(&mut self, count: u64) -> bool {
        self.below(count) == 0
    }

    pub fn pick<T: Copy>(&mut self, items: &[T]) -> T {
        items[self.below(items.len() as u64) as usize]
    }

    fn fill(&mut self, bytes: &mut [u8]) {
        bytes
            .iter_mut()
            .for_each(|byte| *byte = self.number() as u8);
    }

    /// A machine on which most words are done. Bytes between vectors are of chance too.
    pub fn machine(&mut self) -> Machine {
        let (vector_bytes, largest) = self.pick(&LENGTHS);
        let level = self.pick(&[1, 2, 3, 3, 3, 3]);
        let start = self.pick(&[0, 0x1000, 0xFFFF_FFFF_FFFF_F000]);
        let settings = Settings::within(vector_bytes, largest, level).expect("these are allowed");
        let settings = settings
            .with_streaming(!self.one_in(16))
            .with_za(!self.one_in(16))
            .with_memory_address(start)
            .with_stack_check(!self.one_in(4));
        let mut machine = Machine::new(settings, vec![0; 2048]).expect("these fit");
        let Machine { state, memory, .. } = &mut machine;
        for buffer in [&mut state.z, &mut state.p, &mut state.za, memory] {
            self.fill(buffer);
        }
        for number in 0..state.p.len() {
            state.p[number] |= self.pick(&[0, 0xFF]);
        }
        for register in &mut state.x {
            *register = self.number();
        }
        for base in BASES {
            state.x[usize::from(base)] = start.wrapping_add(self.below(1500));
        }
        for offset in OFFSETS {
            state.x[usize::from(offset)] = self.below(16);
        }
        if self.one_in(2) {
            state.x[31] = start + 16 * self.below(90);
        }
        machine
    }

    /// Words of all kinds, with some that decode at no level or go anywhere.
    pub fn words(&mut self) -> Vec<u32> {
        let count = self.pick(&[0, 1, 2, 3, 8, 20, 60]);
        let spoilt = self.pick(&[2, 10, 30, 1000]);
        let word = |_| match self.one_in(spoilt) {
            true => self.number() as u32,
            false => self.word(spoilt),
        };
        (0..count).map(word).collect()
    }

    /// A word that decodes at level 3.
    fn word(&mut self, spoilt: u64) -> u32 {
        let kind = self.below(7) as u8 + 1;
        let element_bytes = self.pick(&[1, 2, 4, 8, 16]);
        let of_tile = Fields {
            kind,
            element_bytes,
            direction: self.below(2) as u8,
            tile: self.below(element_bytes.into()) as u8,
            offset: self.below(16 / u64::from(element_bytes)) as u8,
            index: 12 + self.below(4) as u8,
            predicate: self.below(8) as u8,
            ..Fields::default()
        };
        let fields = match kind {
            3 | 4 => self.of_array(kind),
            5 | 7 => Fields {
                base: self.register(&BASES, spoilt),
                offset_register: self.register(&OFFSETS, spoilt),
                ..of_tile
            },
            _ => Fields {
                predicate: if kind == 2 { 0 } else { of_tile.predicate },
                vector: self.below(32) as u8,
                registers: 1,
                ..of_tile
            },
        };
        encode_fields(fields).expect("it has a word")
    }

    fn of_array(&mut self, kind: u8) -> Fields {
        let registers = self.pick(&[2, 4]);
        Fields {
            kind,
            offset: self.below(8) as u8,
            index: 8 + self.below(4) as u8,
            vector: registers * self.below(32 / u64::from(registers)) as u8,
            registers,
            ..Fields::default()
        }
    }

    /// One of these registers, or seldom any.
    fn register(&mut self, usual: &[u8], spoilt: u64) -> u8 {
        match self.one_in(spoilt) {
            true => self.below(32) as u8,
            false => self.pick(usual),
        }
    }
}
