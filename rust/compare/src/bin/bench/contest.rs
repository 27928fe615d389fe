//! The contestants of one line, on one machine.

use crate::contestants;
use crate::machine::Machine;
use crate::task::{Callee, Task};
use crate::timing::Times;
use compare::case::archive_settings;

/// A call and the times of its contestants, where it has them.
pub struct Contest {
    pub task: Task,
    machine: Machine,
    pub archive: Times,
    pub second: Option<Times>,
    pub copy: Option<Times>,
    pub strided: Option<Times>,
}

impl Contest {
    pub fn new(task: Task) -> Contest {
        Contest {
            machine: task.machine(),
            archive: Times::new(),
            second: (task.callee == Callee::Archive).then(Times::new),
            copy: (task.copied > 0).then(Times::new),
            strided: task.strided.map(|_| Times::new()),
            task,
        }
    }

    /// What the archive answers, which must be what the task says.
    pub fn check(&mut self) -> Result<(), String> {
        let Task {
            name, word, answer, ..
        } = &self.task;
        let settings = archive_settings(&self.machine.settings);
        let answered = self.task.callee.function()(settings, *word, self.machine.lend()).0;
        if answered == *answer {
            return Ok(());
        }
        Err(format!(
            "{name}, vector length {}: the archive answers {answered}, not {answer}",
            self.task.vector_bytes
        ))
    }

    /// Runs one batch of each contestant.
    pub fn turn(&mut self) {
        let (task, machine) = (&self.task, &mut self.machine);
        contestants::archive(task, machine, &mut self.archive);
        if let Some(times) = &mut self.second {
            contestants::second(task, machine, times);
        }
        if let Some(times) = &mut self.copy {
            contestants::copy(task, machine, times);
        }
        if let Some((strided, times)) = task.strided.zip(self.strided.as_mut()) {
            contestants::strided(strided, task, machine, times);
        }
    }
}
