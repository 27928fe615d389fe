//! What is called beside each other. All that can be made beforehand is: a
//! call takes its arguments and no more.

use crate::machine::{Machine, ADDRESS, INDEX};
use crate::plain::{self, Column};
use crate::task::{Strided, Task};
use crate::timing::Caller;
use compare::case::archive_settings;
use second::execute::execute;
use sme_move::Buffers;
use std::hint::black_box;

/// The archive's function, or what is called in its place.
pub fn archive(task: &Task, machine: &mut Machine, caller: &mut impl Caller) {
    let settings = archive_settings(&machine.settings);
    let (function, word) = black_box((task.callee.function(), task.word));
    let mut buffers = machine.lend();
    let buffers = black_box(&mut buffers);
    caller.make(|| function(settings, word, lend_again(buffers)).0);
}

/// The same buffers, lent for one call.
pub fn lend_again<'a>(buffers: &'a mut Buffers<'_>) -> Buffers<'a> {
    Buffers {
        x: buffers.x,
        z: buffers.z,
        p: buffers.p,
        za: buffers.za,
        memory: buffers.memory,
    }
}

/// The second program.
pub fn second(task: &Task, machine: &mut Machine, caller: &mut impl Caller) {
    let word = black_box(task.word);
    let settings = machine.settings;
    let Buffers {
        x,
        z,
        p,
        za,
        memory,
    } = machine.lend();
    caller.make(|| execute(&settings, word, x, z, p, za, memory).0);
}

/// A plain copy of as many bytes.
pub fn copy(task: &Task, machine: &mut Machine, caller: &mut impl Caller) {
    let bytes = task.copied * task.vector_bytes;
    let Buffers { z, za, .. } = machine.lend();
    caller.make(|| plain::copy(z, za, bytes, task.zeroes));
}

/// The plain loop over the elements of a column.
pub fn strided(strided: Strided, task: &Task, machine: &mut Machine, caller: &mut impl Caller) {
    match task.element_bytes {
        1 => strided_of::<1>(strided, task, machine, caller),
        2 => strided_of::<2>(strided, task, machine, caller),
        4 => strided_of::<4>(strided, task, machine, caller),
        8 => strided_of::<8>(strided, task, machine, caller),
        _ => strided_of::<16>(strided, task, machine, caller),
    }
}

fn strided_of<const M: usize>(
    strided: Strided,
    task: &Task,
    machine: &mut Machine,
    caller: &mut impl Caller,
) {
    let column = column(task, machine);
    let own = || black_box(&column);
    let Buffers {
        z, p, za, memory, ..
    } = machine.lend();
    let z = &mut z[task.vector_bytes..];
    match strided {
        Strided::ToTile => caller.make(|| plain::to_tile::<M>(own(), za, z, p)),
        Strided::FromTile => caller.make(|| plain::from_tile::<M>(own(), za, z, p)),
        Strided::ZeroingFromTile => caller.make(|| plain::zeroing_from_tile::<M>(own(), za, z)),
        Strided::Load => caller.make(|| plain::load::<M>(own(), za, memory, p)),
        Strided::Store => caller.make(|| plain::store::<M>(own(), za, memory, p)),
    }
}

/// The slice of the task: of the byte tile, or of tile 1 of a wider size.
fn column(task: &Task, machine: &Machine) -> Column {
    let slices = task.vector_bytes / task.element_bytes;
    Column {
        vector_bytes: task.vector_bytes,
        tile: usize::from(task.element_bytes > 1),
        slice: INDEX as usize % slices,
        in_memory: ADDRESS.wrapping_sub(machine.settings.memory_address) as usize,
    }
}
