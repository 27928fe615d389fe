//! How far the run is, on the error output if that is a terminal.

use compare::exhaustive::progress::line;
use std::io::{self, IsTerminal};
use std::time::{Duration, Instant};

/// Between two lines, each of which takes the place of the last.
const PAUSE: Duration = Duration::from_millis(200);

pub struct Progress {
    total: u64,
    done: u64,
    terminal: bool,
    start: Instant,
    next: Instant,
}

impl Progress {
    pub fn new(total: usize) -> Progress {
        let start = Instant::now();
        Progress {
            total: total as u64,
            done: 0,
            terminal: io::stderr().is_terminal(),
            start,
            next: start + PAUSE,
        }
    }

    /// One more is done.
    pub fn step(&mut self) {
        self.done += 1;
        if self.terminal && Instant::now() >= self.next {
            let line = line("bench", self.done, self.total, self.start.elapsed());
            eprint!("\r{line}\x1B[K");
            self.next = Instant::now() + PAUSE;
        }
    }

    /// The line is not to stay.
    pub fn end(self) {
        if self.terminal {
            eprint!("\r\x1B[K");
        }
    }
}
