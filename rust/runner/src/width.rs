//! How many columns there are to print on.

use crate::digits::decimal;
use std::env;
use std::io::{self, IsTerminal};
use std::os::fd::AsFd;
use std::process::{Command, Stdio};

/// Where output goes to a file or another program.
const DEFAULT: usize = 120;

/// The terminal's width, or the default where output goes elsewhere. The system's own call would need unsafe code,
/// so the shell's variable is asked, and then the program that can tell.
pub fn of_output() -> usize {
    if !io::stdout().is_terminal() {
        return DEFAULT;
    }
    let variable = env::var("COLUMNS").ok();
    let width = variable.as_deref().and_then(columns);
    width.or_else(asked).unwrap_or(DEFAULT)
}

/// What `stty` says of the terminal that output goes to: its rows and its columns. It looks at its own input.
fn asked() -> Option<usize> {
    let terminal = io::stdout().as_fd().try_clone_to_owned().ok()?;
    let mut command = Command::new("stty");
    command.arg("size").stdin(terminal).stderr(Stdio::null());
    let output = command.output().ok()?;
    of_size(&String::from_utf8(output.stdout).ok()?)
}

fn of_size(size: &str) -> Option<usize> {
    let (_, width) = size.trim_end().split_once(' ')?;
    columns(width)
}

/// A terminal that does not know its width says 0.
fn columns(text: &str) -> Option<usize> {
    let number = decimal(text).filter(|&number| number > 0)?;
    usize::try_from(number).ok()
}

#[cfg(test)]
mod tests {
    use super::*;

    #[test]
    fn a_width_is_a_positive_number() {
        assert_eq!(columns("80"), Some(80));
        assert_eq!(of_size("24 80\n"), Some(80));
        for text in ["", "0", "-1", "80 ", "wide", "18446744073709551616"] {
            assert_eq!(columns(text), None, "{text}");
        }
        for size in ["", "24", "0 0\n", "24 80 80", "stty: no terminal"] {
            assert_eq!(of_size(size), None, "{size}");
        }
    }
}
