//! One case, and what each of the two programs makes of it.

use crate::beyond::Beyond;
use second::execute::{execute_with, Buffers, Mistake, Settings};
use sme_move::numbers;
use std::hint::black_box;

/// The number, the address and the element of an answer.
pub type Answered = (u32, u64, u64);

/// A function that executes a word, as the binding has it.
pub type Function = fn(sme_move::Settings, u32, sme_move::Buffers<'_>) -> Answered;

/// A state and a word. The buffers are used again for the next case, so
/// that no case has to ask for room.
pub struct Case {
    pub settings: Settings,
    pub word: u32,
    pub x: Vec<u64>,
    pub z: Vec<u8>,
    pub p: Vec<u8>,
    pub za: Vec<u8>,
    pub memory: Vec<u8>,
}

impl Case {
    /// A case with empty buffers, to be filled by the generator. The switches
    /// are as new settings have them.
    pub fn empty() -> Case {
        Case {
            settings: Settings {
                vector_bytes: 0,
                level: 0,
                streaming: false,
                za_on: false,
                memory_address: 0,
                stack_check: true,
                largest_vector_bytes: 0,
            },
            word: 0,
            x: Vec::new(),
            z: Vec::new(),
            p: Vec::new(),
            za: Vec::new(),
            memory: Vec::new(),
        }
    }
}

/// The answer of one program and the buffers as it left them.
#[derive(Clone, Default)]
pub struct Outcome {
    pub answer: u32,
    pub address: u64,
    pub element: u64,
    pub x: Vec<u64>,
    pub z: Vec<u8>,
    pub p: Vec<u8>,
    pub za: Vec<u8>,
    pub memory: Vec<u8>,
}

impl Outcome {
    /// Runs the case through the second program.
    pub fn run_second(&mut self, case: &Case, mistake: Mistake) {
        self.copy_buffers(case);
        let answered = execute_with(mistake, &case.settings, case.word, self.lend_to_second());
        (self.answer, self.address, self.element) = answered;
    }

    /// Runs the case through the archive.
    pub fn run_archive(&mut self, case: &Case) {
        self.run(numbers::execute, case);
    }

    /// The same through what is called as the archive.
    pub fn run(&mut self, unit: Function, case: &Case) {
        self.copy_buffers(case);
        self.call(unit, case);
    }

    /// The same with every byte beyond the vector length inverted for the
    /// call, and turned back after it: one that the call wrote stands out then.
    pub fn run_inverted(&mut self, unit: Function, case: &Case, beyond: Beyond) {
        self.copy_buffers(case);
        beyond.invert(self);
        self.call(unit, case);
        beyond.invert(self);
    }

    fn call(&mut self, unit: Function, case: &Case) {
        let settings = archive_settings(&case.settings);
        let answered = self.lend(|buffers| unit(settings, case.word, buffers));
        (self.answer, self.address, self.element) = answered;
    }

    /// Lends the buffers to a call of the archive. The black boxes keep the
    /// compiler from taking it that X and P, lent for reading only, are
    /// unchanged.
    pub fn lend<T>(&mut self, call: impl FnOnce(sme_move::Buffers<'_>) -> T) -> T {
        let given = call(sme_move::Buffers {
            x: black_box(&self.x),
            z: &mut self.z,
            p: black_box(&self.p),
            za: &mut self.za,
            memory: &mut self.memory,
        });
        black_box((&mut self.x, &mut self.p));
        given
    }

    /// The buffers as the second program is lent them.
    pub fn lend_to_second(&mut self) -> Buffers<'_> {
        Buffers {
            x: &self.x,
            z: &mut self.z,
            p: &self.p,
            za: &mut self.za,
            memory: &mut self.memory,
        }
    }

    /// The buffers as the case has them, in the room of the last case.
    pub fn copy_buffers(&mut self, case: &Case) {
        self.x.clone_from(&case.x);
        self.z.clone_from(&case.z);
        self.p.clone_from(&case.p);
        self.za.clone_from(&case.za);
        self.memory.clone_from(&case.memory);
    }

    /// Whether both answered alike and left the same bytes. X and P of the
    /// second program are as in the case, since it cannot write them, so
    /// this also shows that the archive left them alone.
    pub fn agrees(&self, other: &Outcome) -> bool {
        self.answer == other.answer
            && self.address == other.address
            && self.element == other.element
            && self.x == other.x
            && self.p == other.p
            && self.z == other.z
            && self.za == other.za
            && self.memory == other.memory
    }
}

/// The settings as the binding has them, valid or not.
pub fn archive_settings(settings: &Settings) -> sme_move::Settings {
    let mut own = sme_move::Settings::new(sme_move::Settings::MIN_VECTOR_BYTES, 0)
        .expect("the shortest vectors are allowed");
    own.vector_bytes = settings.vector_bytes;
    own.level = settings.level;
    own.streaming = settings.streaming;
    own.za = settings.za_on;
    own.memory_address = settings.memory_address;
    own.stack_check = settings.stack_check;
    own.largest_vector_bytes = settings.largest_vector_bytes;
    own
}
