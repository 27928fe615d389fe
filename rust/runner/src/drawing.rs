//! A drawing of the array with a row for each vector and a column for each element size.

use crate::tile::{Tile, ELEMENT_BYTES};
use std::fmt::Write;

const MARGIN: usize = 24;
const HEAD: usize = 104;
const LABEL: usize = 76;
const COLUMN: usize = 128;
const GAP: usize = 10;
const ROW: usize = 26;
const NOTE: usize = 18;

/// What a drawing says besides its cells. Texts may not have characters in them that XML takes for
/// its own.
pub struct Drawing<'a> {
    pub vector_bytes: usize,
    pub title: String,
    /// What it says for those who cannot see it.
    pub description: String,
    /// Definitions that looks refer to.
    pub definitions: &'a str,
    /// What each look means, where the notes do not say it.
    pub legend: Vec<(Cell, &'a str)>,
    pub notes: Vec<String>,
}

/// What a cell says, on its left and on its right, and how it looks.
pub struct Cell {
    pub left: String,
    pub right: String,
    /// A colour, or a pattern of the definitions.
    pub fill: String,
    /// Attributes of its border, each after a blank.
    pub border: &'static str,
}

impl Drawing<'_> {
    /// The drawing. It brings its own light ground, so that it reads the same on light and dark
    /// pages.
    pub fn svg(&self, cell: impl Fn(Tile, usize) -> Cell) -> String {
        let vectors = 0..self.vector_bytes;
        let mut svg = self.head();
        for (column, &element_bytes) in ELEMENT_BYTES.iter().enumerate() {
            heading(&mut svg, left(column), element_bytes, self.vector_bytes);
            for vector in vectors.clone() {
                let tile = Tile::holding(vector, element_bytes, self.vector_bytes);
                draw(&mut svg, left(column), top(vector), &cell(tile, vector));
            }
        }
        for vector in vectors {
            let (x, y) = (MARGIN + LABEL - 12, top(vector) + 17);
            text(&mut svg, "number", x, y, &vector.to_string());
        }
        self.foot(&mut svg);
        svg.push_str("</svg>\n");
        svg
    }

    /// What comes before the cells: the size, what the drawing says for those who cannot see it, how
    /// texts look, the ground, and the titles.
    fn head(&self) -> String {
        let width = 2 * MARGIN + LABEL + ELEMENT_BYTES.len() * (COLUMN + GAP) - GAP;
        let height = self.height();
        let title = &self.title;
        let mut head = format!(
            r##"<svg xmlns="http://www.w3.org/2000/svg" viewBox="0 0 {width} {height}" width="{width}" height="{height}" role="img" aria-labelledby="title desc">
<title id="title">{title}</title>
<desc id="desc">{}</desc>
<style>
text {{ font-family: "DejaVu Sans", Verdana, Helvetica, Arial, sans-serif; fill: #1f2430 }}
.title {{ font-size: 19px; font-weight: bold }}
.size {{ font-size: 13px; font-weight: bold; text-anchor: middle }}
.note {{ font-size: 12px; fill: #4a5162 }}
.under {{ font-size: 12px; fill: #4a5162; text-anchor: middle }}
.number {{ font-size: 13px; text-anchor: end }}
.tile {{ font-size: 13px; font-weight: bold }}
.slice {{ font-size: 12px; text-anchor: end }}
</style>
{}<rect x="1" y="1" width="{}" height="{}" rx="12" fill="#fcfcfa" stroke="#b9bdc7" stroke-width="1.5"/>
"##,
            self.description,
            self.definitions,
            width - 2,
            height - 2
        );
        text(&mut head, "title", MARGIN, 38, title);
        text(&mut head, "number", MARGIN + LABEL - 12, 74, "vector of");
        text(&mut head, "number", MARGIN + LABEL - 12, 92, "the array");
        head
    }

    /// The legend begins where the rows end, a little lower; the notes are under it.
    fn height(&self) -> usize {
        let legend = match self.legend.len() {
            0 => 0,
            entries => entries * ROW + NOTE,
        };
        top(self.vector_bytes) + legend + self.notes.len() * NOTE + 28
    }

    fn foot(&self, svg: &mut String) {
        let mut y = top(self.vector_bytes) + NOTE;
        for (cell, meaning) in &self.legend {
            draw(svg, left(0), y, cell);
            text(svg, "note", left(1), y + 16, meaning);
            y += ROW;
        }
        let first = self.height() - 2 - NOTE * self.notes.len();
        for (i, note) in self.notes.iter().enumerate() {
            text(svg, "note", MARGIN, first + NOTE * i, note);
        }
    }
}

fn left(column: usize) -> usize {
    MARGIN + LABEL + column * (COLUMN + GAP)
}

fn top(vector: usize) -> usize {
    HEAD + vector * ROW
}

fn heading(svg: &mut String, x: usize, element_bytes: usize, vector_bytes: usize) {
    let middle = x + COLUMN / 2;
    text(
        svg,
        "size",
        middle,
        74,
        &format!("{element_bytes}-byte elements"),
    );
    let tiles = if element_bytes == 1 { "tile" } else { "tiles" };
    let slices = vector_bytes / element_bytes;
    let slices = match slices {
        1 => "1 slice".to_string(),
        _ => format!("{slices} slices"),
    };
    text(
        svg,
        "under",
        middle,
        92,
        &format!("{element_bytes} {tiles} of {slices}"),
    );
}

fn draw(svg: &mut String, x: usize, y: usize, cell: &Cell) {
    let height = ROW - 3;
    let Cell { fill, border, .. } = cell;
    // Writing to a string cannot fail.
    let _ = writeln!(
        svg,
        r#"<rect x="{x}" y="{y}" width="{COLUMN}" height="{height}" rx="4" fill="{fill}"{border}/>"#
    );
    text(svg, "tile", x + 10, y + 16, &cell.left);
    text(svg, "slice", x + COLUMN - 10, y + 16, &cell.right);
}

fn text(svg: &mut String, class: &str, x: usize, y: usize, content: &str) {
    // Writing to a string cannot fail.
    let _ = writeln!(
        svg,
        r#"<text class="{class}" x="{x}" y="{y}">{content}</text>"#
    );
}
