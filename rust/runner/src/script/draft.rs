//! Settings as the lines of a script state them, each at most once.

use crate::digits::{decimal, hexadecimal, shown};
use sme_move::Settings;

#[derive(Default)]
pub struct Draft {
    vector_bytes: Option<u64>,
    level: Option<u64>,
    streaming: Option<bool>,
    array: Option<bool>,
    memory_address: Option<u64>,
    stack_check: Option<bool>,
    largest_vector_bytes: Option<u64>,
}

impl Draft {
    /// Takes one setting in.
    pub fn state(&mut self, name: &str, value: &str) -> Result<(), String> {
        match name {
            "vector-bytes" => {
                once(&mut self.vector_bytes, name, vector_bytes(value)?)?;
                self.check_lengths()
            }
            "largest-vector-bytes" => {
                once(&mut self.largest_vector_bytes, name, vector_bytes(value)?)?;
                self.check_lengths()
            }
            "level" => once(&mut self.level, name, level(value)?),
            "streaming" => once(&mut self.streaming, name, switch(name, value)?),
            "array" => once(&mut self.array, "array on or off", switch(name, value)?),
            "stack-check" => once(&mut self.stack_check, name, switch(name, value)?),
            _ => once(&mut self.memory_address, name, hexadecimal(value)?),
        }
    }

    /// The settings, with the defaults of what was not stated.
    pub fn settings(&self) -> Result<Settings, String> {
        let missing = "'vector-bytes' is missing: it comes before all contents and words";
        let vector_bytes = self.vector_bytes.ok_or(missing)?;
        let largest = self.largest_vector_bytes.unwrap_or(vector_bytes);
        let level = self.level.unwrap_or(Settings::MAX_LEVEL);
        let settings = Settings::within(vector_bytes, largest, level);
        let settings = settings.map_err(|answer| answer.to_string())?;
        Ok(settings
            .with_streaming(self.streaming.unwrap_or(true))
            .with_za(self.array.unwrap_or(true))
            .with_memory_address(self.memory_address.unwrap_or(0))
            .with_stack_check(self.stack_check.unwrap_or(true)))
    }

    /// Whether the two lengths go together, which is the unit's to say, from where both are stated on.
    fn check_lengths(&self) -> Result<(), String> {
        match (self.vector_bytes, self.largest_vector_bytes) {
            (Some(bytes), Some(largest)) if Settings::within(bytes, largest, 0).is_err() => {
                Err(format!(
                    "'largest-vector-bytes' is {largest}, below the vector length of {bytes} bytes"
                ))
            }
            _ => Ok(()),
        }
    }
}

fn once<T>(place: &mut Option<T>, name: &str, value: T) -> Result<(), String> {
    match place.replace(value) {
        None => Ok(()),
        Some(_) => Err(format!("'{name}' is stated twice")),
    }
}

/// A vector length in bytes. Which lengths there are is the unit's to say.
pub fn vector_bytes(text: &str) -> Result<u64, String> {
    decimal(text)
        .filter(|&bytes| Settings::new(bytes, 0).is_ok())
        .ok_or_else(|| {
            let text = shown(text);
            format!("'{text}' is no vector length: 16, 32, 64, 128 or 256 bytes, in decimal")
        })
}

fn level(text: &str) -> Result<u64, String> {
    decimal(text)
        .filter(|&level| Settings::new(Settings::MIN_VECTOR_BYTES, level).is_ok())
        .ok_or_else(|| format!("'{}' is no level: 0, 1, 2 or 3", shown(text)))
}

fn switch(name: &str, text: &str) -> Result<bool, String> {
    match text {
        "on" => Ok(true),
        "off" => Ok(false),
        _ => Err(format!("'{name}' is on or off, not '{}'", shown(text))),
    }
}
