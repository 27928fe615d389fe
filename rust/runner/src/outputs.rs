//! Files that get bytes at the end of a run.

use crate::input::Source;
use std::ffi::{OsStr, OsString};
use std::fs;
use std::path::{Path, PathBuf};

#[derive(Default)]
pub struct Outputs {
    pub words: Option<OsString>,
    pub memory: Option<OsString>,
    pub array: Option<OsString>,
}

impl Outputs {
    /// Whether they can be written without loss: a slip of the command line is not to cost a script, nor one output
    /// another. A file of bytes that the script reads may be written again.
    pub fn check(&self, source: &Source) -> Result<(), String> {
        let all = [
            ("--words-out", &self.words),
            ("--memory-out", &self.memory),
            ("--array-out", &self.array),
        ];
        let given = all.into_iter().filter_map(|(name, file)| {
            let file = file.as_deref()?;
            Some((name, place(file)))
        });
        let given: Vec<(&str, PathBuf)> = given.collect();
        for (number, (name, file)) in given.iter().enumerate() {
            match source {
                Source::Example => return Err(format!("{name} goes only with a script")),
                Source::File(script) if *file == place(script) => {
                    return Err(format!("{name} would overwrite the script"))
                }
                _ => (),
            }
            let same = |(_, earlier): &&(&str, PathBuf)| earlier == file;
            if let Some((other, _)) = given[..number].iter().find(same) {
                return Err(format!("{other} and {name} name one file"));
            }
        }
        Ok(())
    }
}

/// Where a file is, or will be, by whichever way its name leads there.
fn place(file: &OsStr) -> PathBuf {
    let path = Path::new(file);
    let by_folder = || {
        let folder = match path.parent() {
            Some(folder) if folder != Path::new("") => folder,
            _ => Path::new("."),
        };
        Some(fs::canonicalize(folder).ok()?.join(path.file_name()?))
    };
    let there = fs::canonicalize(path).ok().or_else(by_folder);
    there.unwrap_or_else(|| path.to_path_buf())
}
