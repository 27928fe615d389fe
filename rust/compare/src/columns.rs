//! The lines of small tables.

use std::fmt::{self, Display, Formatter};

/// One line, in columns.
pub fn write_line(f: &mut Formatter, name: &str, told: &[impl Display]) -> fmt::Result {
    write!(f, "{name:<24}")?;
    for own in told {
        write!(f, " {own:>8}")?;
    }
    writeln!(f)
}
