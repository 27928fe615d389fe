//! A run: what is chosen is timed, saved and printed.

use crate::against::Comparison;
use crate::arguments::Arguments;
use crate::group::Group;
use crate::list::{self, predicates, VECTOR_LENGTHS};
use crate::progress::Progress;
use crate::row::Row;
use crate::table::Table;
use crate::timing::{Effort, Timed};
use crate::{listings, saved, stack, tiles};
use std::io::{self, Write};

/// Does what is asked for. True if it could be done; if not it is told why.
pub fn run(arguments: &Arguments) -> bool {
    let done = time_and_tell(arguments);
    if let Err(message) = &done {
        eprintln!("bench: {message}");
    }
    done.is_ok()
}

/// Files are looked at first, so that none is found to be bad when all is
/// timed; and the table is saved before it is printed.
fn time_and_tell(arguments: &Arguments) -> Result<(), String> {
    let earlier = arguments.against.as_deref().map(saved::read).transpose()?;
    let save = arguments.save.as_deref();
    save.map_or(Ok(()), saved::check_writable)?;
    let rows = time(chosen(arguments)?, arguments.effort);
    save.map_or(Ok(()), |path| saved::write(path, &rows))?;
    let table = Table {
        rows: &rows,
        pairs: &[predicates::pairs(), listings::pairs()].concat(),
        effort: arguments.effort,
    };
    let mut text = table.to_string();
    if let Some(earlier) = &earlier {
        let wanted = |name: &str| arguments.wants(name);
        text += &Comparison::new(&rows, earlier, wanted).to_string();
    }
    let printed = io::stdout().write_all(text.as_bytes());
    printed.map_err(|error| format!("standard output: {error}"))
}

/// The lines that are asked for, each of which the archive answers as it
/// must.
fn chosen(arguments: &Arguments) -> Result<Vec<Box<dyn Timed>>, String> {
    let mut chosen: Vec<Box<dyn Timed>> = Vec::new();
    for group in VECTOR_LENGTHS.into_iter().flat_map(list::groups) {
        let tasks = arguments.choose(group, |task| &task.name);
        if !tasks.is_empty() {
            chosen.push(Box::new(Group::new(tasks)?));
        }
    }
    chosen.extend(listings::chosen(arguments)?);
    chosen.extend(tiles::chosen(arguments)?);
    match (chosen.is_empty(), &arguments.only) {
        (true, Some(text)) => Err(format!("no line has '{text}' in its name")),
        _ => Ok(chosen),
    }
}

/// Goes over all lines, round by round.
fn time(mut chosen: Vec<Box<dyn Timed>>, effort: Effort) -> Vec<Row> {
    let mut progress = Progress::new(effort.rounds * chosen.len());
    for round in 0..effort.rounds {
        stack::shifted(round, &mut || {
            for timed in &mut chosen {
                timed.run(effort.turn(round));
                progress.step();
            }
        });
    }
    progress.end();
    chosen.iter().flat_map(|timed| timed.rows()).collect()
}
