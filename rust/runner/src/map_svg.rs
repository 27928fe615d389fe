//! How the tiles of each element size share the array, as a drawing.

use crate::drawing::{Cell, Drawing};
use crate::map::{colour, title};
use crate::paint::web_colour;
use crate::tile::Tile;

pub fn svg(vector_bytes: usize) -> String {
    let drawing = Drawing {
        vector_bytes,
        title: title(vector_bytes),
        description: "A table with a row for each vector of the array and a column for each element size. Vector v belongs to tile v modulo m of m-byte elements, as its horizontal slice v divided by m.".to_string(),
        definitions: "",
        legend: Vec::new(),
        notes: vec![
            "Vector v of the array is horizontal slice v div m of tile v mod m of m-byte elements.".to_string(),
            "A tile of one size is two tiles of the next size, whose colours lie on either side of its own.".to_string(),
        ],
    };
    drawing.svg(cell)
}

/// One vector of the array as a slice of a tile.
fn cell(tile: Tile, vector: usize) -> Cell {
    Cell {
        left: format!("tile {}", tile.number),
        right: format!("slice {}", vector / tile.element_bytes),
        fill: web_colour(colour(tile)),
        border: "",
    }
}

#[cfg(test)]
mod tests {
    use super::*;

    #[test]
    fn the_drawing_has_a_cell_for_each_vector_and_size() {
        for vector_bytes in [16, 256] {
            let svg = svg(vector_bytes);
            assert_eq!(svg.matches(r#"class="tile""#).count(), 5 * vector_bytes);
            assert_eq!(svg.matches("<text").count(), svg.matches("</text>").count());
            assert!(svg.contains("<title") && svg.contains("<desc"));
            assert!(!svg.contains("<script") && !svg.contains("href"));
        }
    }
}
