//! Listings that are run in one call, beside the same words by single calls.

mod contest;
mod list;
#[cfg(test)]
mod tests;

use crate::arguments::Arguments;
use crate::timing::Timed;
use contest::Group;

pub use list::pairs;

/// The lines that are asked for. An error if the archive has another answer
/// than it must, or does another number of words.
pub fn chosen(arguments: &Arguments) -> Result<Vec<Box<dyn Timed>>, String> {
    let mut chosen: Vec<Box<dyn Timed>> = Vec::new();
    for group in list::groups() {
        let lines = arguments.choose(group, |line| &line.name);
        if !lines.is_empty() {
            chosen.push(Box::new(Group::new(lines)?));
        }
    }
    Ok(chosen)
}
