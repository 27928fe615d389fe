//! How far a comparison is, on the error output.

use std::io::{self, IsTerminal};
use std::sync::mpsc::Receiver;
use std::time::{Duration, Instant};

/// Between two lines on a terminal, where each takes the place of the last.
const ON_TERMINAL: Duration = Duration::from_millis(200);
/// Between two lines in a file or pipe, which keeps them all.
const IN_FILE: Duration = Duration::from_secs(10);

/// One comparison's progress.
pub struct Progress<'a> {
    name: &'a str,
    total: u64,
    terminal: bool,
    start: Instant,
}

impl Progress<'_> {
    pub fn new(name: &str, total: u64) -> Progress<'_> {
        Progress {
            name,
            total,
            terminal: io::stderr().is_terminal(),
            start: Instant::now(),
        }
    }

    /// Tells of the blocks that are done until all senders are gone.
    pub fn follow(&self, done: Receiver<()>) {
        let pause = if self.terminal { ON_TERMINAL } else { IN_FILE };
        let mut next = self.start + pause;
        for (before, ()) in (0..).zip(done) {
            if Instant::now() >= next {
                self.tell(before + 1);
                next = Instant::now() + pause;
            }
        }
        if self.terminal {
            // The line is not to stay.
            eprint!("\r\x1B[K");
        }
    }

    fn tell(&self, done: u64) {
        let line = line(self.name, done, self.total, self.start.elapsed());
        if self.terminal {
            eprint!("\r{line}\x1B[K");
        } else {
            eprintln!("{line}");
        }
    }
}

/// What is done, and what the rest takes if it goes on like this.
pub fn line(name: &str, done: u64, total: u64, elapsed: Duration) -> String {
    let part = done as f64 / total as f64;
    let left = elapsed.as_secs_f64() * (1.0 - part) / part;
    let (minutes, seconds) = (left as u64 / 60, left as u64 % 60);
    format!(
        "{name}: {:.1} % done, {minutes} min {seconds:02} s left",
        100.0 * part
    )
}
