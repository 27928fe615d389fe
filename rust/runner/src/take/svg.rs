//! The array with held, new and free tiles, as a drawing.

use super::room::{Room, Status};
use super::{name, Asked, Outcome, Question};
use crate::drawing::{Cell, Drawing};
use crate::paint::web_colour;
use crate::tile::ELEMENT_BYTES;
use crate::wording::{answered, list, ranges};

/// Stripes, which tell tiles that cannot be had from others where there is no colour.
const STRIPES: &str = r##"<defs>
<pattern id="stripes" width="7" height="7" patternUnits="userSpaceOnUse" patternTransform="rotate(45)"><rect width="7" height="7" fill="#f0f1f4"/><rect width="2" height="7" fill="#d5d8e0"/></pattern>
</defs>
"##;

pub fn svg(asked: &Asked, room: &Room) -> String {
    let entry = |status: Status| (cell("tile".to_string(), status), status.meaning());
    let drawing = Drawing {
        vector_bytes: room.vector_bytes,
        title: title(asked),
        description: description(asked, room),
        definitions: STRIPES,
        legend: room.statuses().into_iter().map(entry).collect(),
        notes: vec![
            format!("Asked: {}.", asked.asked()),
            "Vector v of the array belongs to tile v mod m of m-byte elements.".to_string(),
            "Tile t of m-byte elements is tiles t and t + m of the next size.".to_string(),
        ],
    };
    drawing.svg(|tile, _| cell(format!("tile {}", tile.number), room.status(tile)))
}

/// The answer as a sentence.
fn title(asked: &Asked) -> String {
    match &asked.answer {
        Ok(Outcome::New(new)) => format!("Answer 0: {} is new", name(*new)),
        Ok(Outcome::Left { given_up, .. }) => format!("Answer 0: {} is given up", name(*given_up)),
        Err(refusal) => {
            let said = answered(refusal.number(), &asked.reason(*refusal));
            format!("Answer {said}")
        }
    }
}

fn description(asked: &Asked, room: &Room) -> String {
    let held = list(&asked.held_lines(room));
    let (_, tiles) = asked.outcome();
    let outcome = match asked.question {
        Question::Take { .. } => "New",
        Question::GiveUp(_) => "Left",
    };
    let sizes = ELEMENT_BYTES.into_iter();
    let free: Vec<String> = sizes.filter_map(|size| free(room, size)).collect();
    format!(
        "A table with a row for each vector of the array and a column for each element size. Vector v belongs to tile v modulo m of m-byte elements. Asked: {}. Held: {held}. {outcome}: {}. Free: {}.",
        asked.asked(),
        list(&tiles),
        list(&free)
    )
}

/// The free tiles of an element size, if there are any.
fn free(room: &Room, element_bytes: usize) -> Option<String> {
    let mut numbers = room.numbers(Status::Free, element_bytes);
    numbers.extend(room.numbers(Status::GivenUp, element_bytes));
    numbers.sort_unstable();
    let tiles = match numbers.len() {
        0 => return None,
        1 => "tile",
        _ => "tiles",
    };
    let numbers = ranges(&numbers);
    Some(format!(
        "{tiles} {numbers} of {element_bytes}-byte elements"
    ))
}

/// A cell whose status is told by its mark and its border, and by its colour besides.
fn cell(left: String, status: Status) -> Cell {
    let (fill, border) = match status {
        Status::Held => (None, r##" stroke="#2c5f9e" stroke-width="1.5""##),
        Status::New => (None, r##" stroke="#1d6b1a" stroke-width="3""##),
        Status::GivenUp => (
            None,
            r##" stroke="#8a6d1a" stroke-width="2.5" stroke-dasharray="2 3""##,
        ),
        Status::Free => (
            None,
            r##" stroke="#8a90a0" stroke-width="1.5" stroke-dasharray="5 3""##,
        ),
        Status::Shares => (Some("url(#stripes)"), ""),
        Status::Clash => (
            None,
            r##" stroke="#a3301a" stroke-width="3" stroke-dasharray="9 4""##,
        ),
    };
    Cell {
        left,
        right: status.mark().to_string(),
        fill: fill.map_or_else(|| web_colour(status.colour()), str::to_string),
        border,
    }
}

#[cfg(test)]
mod tests {
    use super::super::tests::{giving_up, taking};

    #[test]
    fn the_drawing_has_a_cell_for_each_vector_and_size_and_a_legend() {
        for vector_bytes in [16, 256] {
            let svg = taking(4, &[(2, 0), (8, 3)]).svg(vector_bytes);
            assert_eq!(svg.matches(r#"class="tile""#).count(), 5 * vector_bytes + 4);
            let marks = |mark: &str| svg.matches(&format!(">{mark}</text>")).count();
            assert_eq!(marks("new"), vector_bytes / 4 + 1);
            assert_eq!(marks("held"), vector_bytes / 2 + vector_bytes / 8 + 1);
            assert_eq!(marks("clash"), 0);
            assert!(svg.contains("<title") && svg.contains("<desc"));
            assert!(!svg.contains("<script") && !svg.contains("href"));
        }
    }

    #[test]
    fn the_description_says_what_is_drawn() {
        let svg = taking(4, &[(2, 0), (8, 3)]).svg(16);
        assert!(
            svg.contains("<title id=\"title\">Answer 0: tile 1 of 4-byte elements is new</title>")
        );
        assert!(svg.contains(
            "Asked: one more tile of 4-byte elements. Held: tile 0 of 2-byte elements and tile 3 of \
             8-byte elements. New: tile 1 of 4-byte elements. Free: tile 7 of 8-byte elements and \
             tiles 7 and 15 of 16-byte elements.</desc>"
        ));
        let svg = giving_up((8, 3), &[(2, 0), (8, 3)]).svg(16);
        assert!(
            svg.contains("<title id=\"title\">Answer 0: tile 3 of 8-byte elements is given up<")
        );
        assert!(svg.contains(
            ". Left: tile 0 of 2-byte elements. Free: tile 1 of 2-byte elements, tiles 1 and 3 of 4-byte \
             elements, tiles 1, 3, 5 and 7 of 8-byte elements and"
        ));
        assert_eq!(svg.matches(">given</text>").count(), 2 + 1);
        let svg = taking(8, &[(1, 0), (257, 0)]).svg(16);
        assert!(svg.contains("Answer 16: a held tile does not exist, or two share bytes</title>"));
        assert!(svg
            .contains("tile 0 of 257-byte elements, which does not exist. New: none. Free: none."));
    }
}
