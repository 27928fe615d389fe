//! Work in blocks, shared out to threads. What comes of it does not depend
//! on the number of threads: a block knows nothing but its number, sums are
//! added up, and of all differences that of the lowest block is told.

use super::progress::Progress;
use second::inputs::random::Random;
use std::ops::Range;
use std::sync::atomic::{AtomicU64, Ordering};
use std::sync::mpsc::{self, Sender};
use std::thread;

/// What a thread counts.
pub trait Sum: Default + Send {
    fn merge(&mut self, other: Self);
}

/// How work is done.
#[derive(Clone, Debug, PartialEq, Eq)]
pub struct Workers {
    pub threads: usize,
}

/// What the threads share: the number of the next block, and that of the
/// lowest block with a difference.
struct Shared {
    blocks: u64,
    next: AtomicU64,
    lowest: AtomicU64,
}

/// What one thread brings: its sum, and the difference that ended it.
struct Brought<T> {
    sum: T,
    difference: Option<(u64, String)>,
}

impl Workers {
    /// As many threads as there are cores.
    pub fn on_all_cores() -> Workers {
        Workers {
            threads: thread::available_parallelism().map_or(1, usize::from),
        }
    }

    /// Does the work of all blocks, `name` being what progress is told of.
    pub fn run<T: Sum>(
        &self,
        name: &str,
        blocks: u64,
        work: impl Fn(u64, &mut T) -> Result<(), String> + Sync,
    ) -> Result<T, String> {
        let shared = Shared {
            blocks,
            next: AtomicU64::new(0),
            lowest: AtomicU64::new(u64::MAX),
        };
        let (sender, receiver) = mpsc::channel();
        let brought = thread::scope(|scope| {
            let start = |sender: Sender<()>| scope.spawn(|| shared.work(&work, sender));
            let threads: Vec<_> = (0..self.threads).map(|_| start(sender.clone())).collect();
            // The receiver ends when no thread has a sender any more.
            drop(sender);
            Progress::new(name, blocks).follow(receiver);
            let join = |thread: thread::ScopedJoinHandle<_>| thread.join();
            let ends: Result<Vec<_>, _> = threads.into_iter().map(join).collect();
            ends.expect("no thread panics")
        });
        add_up(brought)
    }
}

impl Shared {
    /// One thread's share. Blocks are handed out in order, so that those
    /// below the lowest difference are all with some thread already.
    fn work<T: Sum>(
        &self,
        work: &impl Fn(u64, &mut T) -> Result<(), String>,
        done: Sender<()>,
    ) -> Brought<T> {
        let mut sum = T::default();
        let mut difference = None;
        while difference.is_none() {
            let block = self.next.fetch_add(1, Ordering::Relaxed);
            if block >= self.blocks || block > self.lowest.load(Ordering::Relaxed) {
                break;
            }
            if let Err(message) = work(block, &mut sum) {
                self.lowest.fetch_min(block, Ordering::Relaxed);
                difference = Some((block, message));
            }
            // Nobody listens any more only if the main thread is gone.
            let _ = done.send(());
        }
        Brought { sum, difference }
    }
}

/// The difference of the lowest block, or the sum of all sums.
fn add_up<T: Sum>(brought: Vec<Brought<T>>) -> Result<T, String> {
    let mut sum = T::default();
    let mut differences = Vec::new();
    for one in brought {
        sum.merge(one.sum);
        differences.extend(one.difference);
    }
    match differences.into_iter().min() {
        Some((_, message)) => Err(message),
        None => Ok(sum),
    }
}

/// `count` things in blocks of `size`, the last of which may be shorter.
#[derive(Clone, Copy)]
pub struct Blocks {
    pub count: u64,
    pub size: u64,
}

impl Blocks {
    pub fn number(&self) -> u64 {
        self.count.div_ceil(self.size)
    }

    pub fn range(&self, block: u64) -> Range<u64> {
        let first = block * self.size;
        first..self.count.min(first + self.size)
    }
}

/// How many random things, and the seed of all of them.
#[derive(Clone, Copy, Debug, PartialEq, Eq)]
pub struct Draws {
    pub seed: u64,
    pub count: u64,
}

impl Draws {
    /// A block's own seed. It is drawn, so that blocks of one run and of
    /// runs with neighbouring seeds do not share their numbers.
    pub fn block_seed(&self, block: u64) -> u64 {
        let of_run = Random::new(self.seed).bits();
        Random::new(of_run ^ block).bits()
    }
}
