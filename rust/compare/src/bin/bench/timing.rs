//! Time per call: batches of calls, of which the fastest counts.

use crate::row::Row;
use std::hint::black_box;
use std::time::{Duration, Instant};

/// A batch lasts about this long: reading the clock does not show in it, and
/// few of them meet anything else that the computer does.
const BATCH: Duration = Duration::from_micros(100);

/// How often everything is timed. A round goes over all lines, so that a slow
/// time of the computer does not meet all batches of some of them.
#[derive(Clone, Copy, Debug, PartialEq, Eq)]
pub struct Effort {
    pub rounds: usize,
    /// In each round, of each contestant.
    pub batches: usize,
    /// In how many of the rounds what is long is timed too.
    pub long_rounds: usize,
}

/// What one round makes of each line.
#[derive(Clone, Copy)]
pub struct Turn {
    pub batches: usize,
    pub long: bool,
}

impl Effort {
    pub fn turn(self, round: usize) -> Turn {
        Turn {
            batches: self.batches,
            long: round < self.long_rounds,
        }
    }
}

/// What is timed round by round.
pub trait Timed {
    /// Runs the batches of a round, the contestants in turns, so that a slow
    /// moment of the computer does not meet only one of them.
    fn run(&mut self, turn: Turn);

    /// What was found until now.
    fn rows(&self) -> Vec<Row>;
}

/// Who makes a contestant's calls: many, to time them, or one, to see what
/// it does.
pub trait Caller {
    fn make<T>(&mut self, call: impl FnMut() -> T);
}

/// The times of one contestant.
pub struct Times {
    calls: u32,
    least: f64,
}

impl Times {
    /// No batch yet.
    pub fn new() -> Times {
        Times {
            calls: 0,
            least: f64::INFINITY,
        }
    }

    /// Runs a batch that makes so many calls itself.
    pub fn pass(&mut self, calls: u32, pass: impl FnOnce()) {
        let start = Instant::now();
        pass();
        self.keep(start.elapsed(), calls);
    }

    fn keep(&mut self, batch: Duration, calls: u32) {
        let each = batch.as_secs_f64() * 1e9 / f64::from(calls);
        self.least = self.least.min(each);
    }

    /// Nanoseconds per call in the fastest batch.
    pub fn least(&self) -> f64 {
        self.least
    }
}

impl Caller for Times {
    /// Runs one batch. The first also finds out how many calls fill it.
    fn make<T>(&mut self, mut call: impl FnMut() -> T) {
        if self.calls == 0 {
            self.calls = calls_in_a_batch(&mut call);
        }
        self.keep(run(self.calls, &mut call), self.calls);
    }
}

fn run<T>(calls: u32, call: &mut impl FnMut() -> T) -> Duration {
    let start = Instant::now();
    for _ in 0..calls {
        black_box(call());
    }
    start.elapsed()
}

/// How many calls fill a batch. The least of three runs counts here too: one
/// that was held up would make all batches short.
fn calls_in_a_batch<T>(call: &mut impl FnMut() -> T) -> u32 {
    let mut calls = 16;
    loop {
        let lasted = (0..3).map(|_| run(calls, call)).min();
        let lasted = lasted.unwrap_or_default();
        if lasted >= BATCH / 8 {
            let fill = BATCH.as_secs_f64() / lasted.as_secs_f64();
            return (f64::from(calls) * fill).ceil() as u32;
        }
        calls *= 2;
    }
}
