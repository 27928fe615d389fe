//! The options and operands of a command line, before they are a task.

use crate::digits::decimal;
use crate::wording::quoted;
use std::ffi::{OsStr, OsString};

/// The options that were given, and what is left besides.
#[derive(Default)]
pub struct Given {
    flags: Vec<&'static str>,
    values: Vec<(&'static str, OsString)>,
    pub operands: Vec<OsString>,
}

const FLAGS: [&str; 9] = [
    "--help",
    "--version",
    "--decode",
    "--encode",
    "--map",
    "--all",
    "--strict",
    "--quiet",
    "--json",
];
const VALUES: [&str; 10] = [
    "--words-out",
    "--memory-out",
    "--array-out",
    "--take",
    "--give-up",
    "--level",
    "--vector-bytes",
    "--svg",
    "--color",
    "--width",
];

impl Given {
    pub fn read(mut arguments: impl Iterator<Item = OsString>) -> Result<Given, String> {
        let mut given = Given::default();
        while let Some(argument) = arguments.next() {
            match argument.to_str() {
                Some("--") => given.operands.extend(arguments.by_ref()),
                Some("-h") => given.flags.push("--help"),
                Some(text) if text.starts_with("--") => given.option(text, &mut arguments)?,
                Some(text) if text.starts_with('-') && text != "-" => return Err(unknown(text)),
                _ => given.operands.push(argument),
            }
        }
        Ok(given)
    }

    /// Takes in an option, whose value may follow it or stand after a `=`.
    fn option(
        &mut self,
        text: &str,
        following: &mut impl Iterator<Item = OsString>,
    ) -> Result<(), String> {
        if let Some(flag) = FLAGS.into_iter().find(|&flag| flag == text) {
            self.flags.push(flag);
            return Ok(());
        }
        let (name, joined) = match text.split_once('=') {
            Some((name, value)) => (name, Some(OsString::from(value))),
            None => (text, None),
        };
        let known = VALUES.into_iter().find(|&known| known == name);
        let name = known.ok_or_else(|| unknown(text))?;
        if self.value(name).is_some() {
            return Err(format!("{name} is given twice"));
        }
        let missing = || format!("{name} takes a value");
        let value = joined.or_else(|| following.next()).ok_or_else(missing)?;
        self.values.push((name, value));
        Ok(())
    }

    pub fn has(&self, flag: &str) -> bool {
        self.flags.contains(&flag)
    }

    pub fn given(&self, name: &str) -> bool {
        self.has(name) || self.value(name).is_some()
    }

    pub fn value(&self, name: &str) -> Option<&OsStr> {
        let found = self.values.iter().find(|(known, _)| *known == name);
        found.map(|(_, value)| value.as_os_str())
    }

    /// The decimal number of an option.
    pub fn number(&self, name: &str, default: u64) -> Result<u64, String> {
        let Some(value) = self.value(name) else {
            return Ok(default);
        };
        let number = value.to_str().and_then(decimal);
        number.ok_or_else(|| format!("{name} takes a decimal number, not {}", quoted(value)))
    }

    pub fn width(&self) -> Result<Option<usize>, String> {
        let number = match self.value("--width") {
            None => return Ok(None),
            Some(_) => self.number("--width", 0)?,
        };
        // A width above all that there is to show has no other effect.
        Ok(Some(usize::try_from(number).unwrap_or(usize::MAX)))
    }

    /// An option that has no meaning here would be overlooked in silence, so it is a mistake.
    pub fn without(&self, names: &[&str], task: &str) -> Result<(), String> {
        match names.iter().find(|name| self.given(name)) {
            Some(name) => Err(format!("{name} goes only with {task}")),
            None => Ok(()),
        }
    }
}

fn unknown(text: &str) -> String {
    format!("there is no option {}", quoted(OsStr::new(text)))
}
