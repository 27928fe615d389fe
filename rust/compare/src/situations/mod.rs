//! Situations that the table does not show but that a run must contain.

mod accesses;
mod buffers;
mod faults;
mod long_buffers;
mod memory;
mod moves;
mod settings;
mod slices;

use crate::rows::Drawn;
use crate::view::View;
use std::fmt::{self, Display, Formatter};

/// A situation: its name, how to know it, and how often it was met.
struct Situation {
    name: String,
    holds: Box<dyn Fn(&View) -> bool + Send>,
    count: u64,
}

/// All situations that are to be met.
pub struct Situations {
    list: Vec<Situation>,
}

impl Situations {
    /// The situations of cases that are drawn from these rows.
    pub fn new(drawn: Drawn) -> Situations {
        let mut all = Situations { list: Vec::new() };
        slices::name(&mut all, drawn);
        moves::name(&mut all, drawn);
        accesses::name(&mut all, drawn);
        buffers::name(&mut all);
        long_buffers::name(&mut all, drawn);
        memory::name(&mut all, drawn);
        settings::name(&mut all);
        all
    }

    /// Names a situation that is to be met.
    fn name(&mut self, name: impl Into<String>, holds: impl Fn(&View) -> bool + Send + 'static) {
        self.list.push(Situation {
            name: name.into(),
            holds: Box::new(holds),
            count: 0,
        });
    }

    /// Counts the situations of one case.
    pub fn add(&mut self, view: &View) {
        for situation in &mut self.list {
            if (situation.holds)(view) {
                situation.count += 1;
            }
        }
    }

    /// Takes the counts of other cases in, which are drawn from the same rows
    /// and so have the same list.
    pub fn merge(&mut self, other: Situations) {
        for (own, other) in self.list.iter_mut().zip(&other.list) {
            own.count += other.count;
        }
    }

    /// The situations that were not met.
    pub fn missing(&self) -> Vec<String> {
        let missing = self.list.iter().filter(|own| own.count == 0);
        missing.map(|own| format!("never: {}", own.name)).collect()
    }
}

impl Display for Situations {
    fn fmt(&self, f: &mut Formatter) -> fmt::Result {
        for situation in &self.list {
            writeln!(f, "{:>8}  {}", situation.count, situation.name)?;
        }
        Ok(())
    }
}
