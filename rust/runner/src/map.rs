//! How the tiles of each element size share the array, as a table.

use crate::paint::{terminal_colour, Paint, Style};
use crate::tile::{Tile, ELEMENT_BYTES};
use std::io::{self, Write};

pub fn print(out: &mut impl Write, vector_bytes: usize, paint: Paint) -> io::Result<()> {
    for line in lines(vector_bytes, paint) {
        writeln!(out, "{line}")?;
    }
    Ok(())
}

pub fn title(vector_bytes: usize) -> String {
    format!("How tiles share the array: {vector_bytes} vectors of {vector_bytes} bytes")
}

fn lines(vector_bytes: usize, paint: Paint) -> Vec<String> {
    let mut lines = vec![
        paint.text(Style::Heading, &title(vector_bytes)),
        String::new(),
    ];
    lines.extend(table(vector_bytes, " tile slice ", |tile, vector| {
        cell(tile, vector, paint)
    }));
    lines
}

/// A table with a row for each vector of the array and a column for each element size. Cells are 12
/// columns wide, and so is the caption that stands over each column of them.
pub fn table(
    vector_bytes: usize,
    caption: &str,
    cell: impl Fn(Tile, usize) -> String,
) -> Vec<String> {
    let sizes = ELEMENT_BYTES.map(|size| format!("{:^12}", format!("{size}-byte")));
    let mut lines = vec![
        line("array ", sizes),
        line("vector", ELEMENT_BYTES.map(|_| caption.to_string())),
        format!("-------{}", "+------------".repeat(ELEMENT_BYTES.len())),
    ];
    lines.extend((0..vector_bytes).map(|vector| {
        let cell = |size| cell(Tile::holding(vector, size, vector_bytes), vector);
        line(&format!("{vector:>6}"), ELEMENT_BYTES.map(cell))
    }));
    lines
}

fn line(label: &str, cells: [String; ELEMENT_BYTES.len()]) -> String {
    format!("{label} |{}", cells.join("|"))
        .trim_end()
        .to_string()
}

fn cell(tile: Tile, vector: usize, paint: Paint) -> String {
    let slice = vector / tile.element_bytes;
    let text = format!("{:>5}{slice:>6} ", tile.number);
    paint.text(Style::On(terminal_colour(colour(tile))), &text)
}

/// A tile's colour, red, green and blue. A tile of one size is two of the next: these get the
/// colours a little to the left and to the right of its own on the wheel, so that one sees which
/// tiles lie in which.
pub fn colour(tile: Tile) -> [u8; 3] {
    let (mut place, mut rest) = (0, tile.number);
    let mut size = tile.element_bytes;
    while size > 1 {
        place = 2 * place + rest % 2;
        (rest, size) = (rest / 2, size / 2);
    }
    let turn = (2 * place + 1) as f64 / (2 * tile.element_bytes) as f64;
    wheel(turn)
}

/// The light colour at a part of a turn around the wheel.
fn wheel(turn: f64) -> [u8; 3] {
    [0.0, 2.0 / 3.0, 1.0 / 3.0].map(|shift: f64| {
        let distance = ((turn + shift).fract() * 6.0 - 3.0).abs();
        let strength = (distance - 1.0).clamp(0.0, 1.0);
        (145.0 + 100.0 * strength).round() as u8
    })
}

#[cfg(test)]
mod tests {
    use super::*;

    #[test]
    fn a_row_says_which_tile_of_each_size_holds_the_vector() {
        let lines = lines(32, Paint { colours: false });
        assert_eq!(lines.len(), 5 + 32);
        let numbers: Vec<&str> = lines[5 + 21]
            .split([' ', '|'])
            .filter(|s| !s.is_empty())
            .collect();
        // Vector 21, and tile and slice for elements of 1, 2, 4, 8 and 16 bytes.
        let expected = [21, 0, 21, 1, 10, 1, 5, 5, 2, 5, 1];
        assert_eq!(numbers, expected.map(|n| n.to_string()));
    }

    #[test]
    fn tiles_of_a_size_have_different_colours() {
        for element_bytes in ELEMENT_BYTES {
            let tile = |vector| Tile::holding(vector, element_bytes, 16);
            let mut colours: Vec<_> = (0..element_bytes).map(|v| colour(tile(v))).collect();
            colours.sort_unstable();
            colours.dedup();
            assert_eq!(colours.len(), element_bytes);
        }
    }
}
