//! Colour, where it is wanted.

use std::env;
use std::io::{self, IsTerminal};

#[derive(Clone, Copy, Debug, Default, PartialEq)]
pub enum ColorChoice {
    #[default]
    Auto,
    Always,
    Never,
}

/// What a text is, which decides how it looks.
#[derive(Clone, Copy)]
pub enum Style {
    Heading,
    /// Beside the point: numbers of rows and columns.
    Faint,
    /// A byte that a word takes and leaves as it is.
    Taken,
    /// A byte that changed, as it was.
    Before,
    /// A byte that changed, as it is now.
    After,
    Refused,
    /// On a background of one of a terminal's 256 colours.
    On(u8),
}

/// Whether to colour.
#[derive(Clone, Copy)]
pub struct Paint {
    pub colours: bool,
}

impl Paint {
    /// For standard output. NO_COLOR is a convention of many programs: any content turns colour
    /// off.
    pub fn chosen(choice: ColorChoice) -> Paint {
        let wanted = || env::var_os("NO_COLOR").is_none_or(|value| value.is_empty());
        let colours = match choice {
            ColorChoice::Auto => io::stdout().is_terminal() && wanted(),
            ColorChoice::Always => true,
            ColorChoice::Never => false,
        };
        Paint { colours }
    }

    pub fn text(self, style: Style, text: &str) -> String {
        if !self.colours {
            return text.to_string();
        }
        let code = match style {
            Style::Heading => "1".to_string(),
            Style::Faint => "2".to_string(),
            Style::Taken => "1;36".to_string(),
            Style::Before => "31".to_string(),
            Style::After => "1;4;32".to_string(),
            Style::Refused => "1;33".to_string(),
            Style::On(colour) => format!("30;48;5;{colour}"),
        };
        format!("\u{1b}[{code}m{text}\u{1b}[0m")
    }
}

/// The nearest of the 216 colours that a terminal of 256 has as a cube; a colour is red, green and
/// blue.
pub fn terminal_colour(rgb: [u8; 3]) -> u8 {
    let step = |part: u8| match part {
        0..48 => 0,
        48..115 => 1,
        _ => (part - 35) / 40,
    };
    let [red, green, blue] = rgb.map(step);
    16 + 36 * red + 6 * green + blue
}

/// A colour as drawings have it.
pub fn web_colour([red, green, blue]: [u8; 3]) -> String {
    format!("#{red:02x}{green:02x}{blue:02x}")
}

/// How much to show, and how.
pub struct View {
    pub paint: Paint,
    /// How many columns a grid may have.
    pub width: usize,
    /// Whether to show grids whole.
    pub all: bool,
}

#[cfg(test)]
mod tests {
    use super::*;

    #[test]
    fn terminal_colours_are_in_the_cube() {
        assert_eq!(terminal_colour([0, 0, 0]), 16);
        assert_eq!(terminal_colour([255, 255, 255]), 231);
    }
}
