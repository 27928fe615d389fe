//! The same calls in buffers for longer vectors, each beside itself in buffers
//! for its own: how much it costs that vectors are further apart.

use crate::active::Active;
use crate::row::Part;
use crate::task::{Callee, Task};

/// The one vector length, and the one that buffers are for.
pub const VECTOR_BYTES: usize = 64;
pub const LARGEST: usize = 256;

/// Sizes of elements that columns differ by: small, middle and large.
const ELEMENT_BYTES: [usize; 3] = [1, 4, 16];

/// The group, and behind it the same call in long buffers, if it is one that
/// is timed there.
pub fn beside(mut group: Vec<Task>) -> Vec<Task> {
    if let [task] = &group[..] {
        if is_timed(task) {
            let long = in_long_buffers(task);
            group.push(long);
        }
    }
    group
}

/// What is done with every element active: rows and columns of three sizes,
/// and whole vectors.
fn is_timed(task: &Task) -> bool {
    task.vector_bytes == VECTOR_BYTES
        && task.callee == Callee::Archive
        && task.answer == 0
        && task.active == Active::All
        && ELEMENT_BYTES.contains(&task.element_bytes)
}

/// It stands beside the call in close buffers alone.
fn in_long_buffers(task: &Task) -> Task {
    let how = format!("buffers for {LARGEST}");
    Task {
        largest: LARGEST,
        copied: 0,
        strided: None,
        goal: None,
        part: Part::LongBuffers,
        ..task.changed(&how, |_| ())
    }
}
