//! Two lines whose times have a goal between them.

use crate::row::{Part, Row};

#[derive(Clone)]
pub struct Pair {
    /// What is said of it.
    pub name: String,
    /// The names of the lines, which are of one vector length.
    pub lines: [String; 2],
    pub vector_bytes: usize,
    /// The most that the first is to take of the time of the second.
    pub most: f64,
    /// Where both lines are, and it is told.
    pub part: Part,
}

impl Pair {
    /// The archive's time for the first over that for the second, if both
    /// were timed.
    pub fn ratio(&self, rows: &[Row]) -> Option<f64> {
        let time = |name: &String| {
            let key = (name.as_str(), Some(self.vector_bytes));
            let row = rows.iter().find(|row| row.record.key() == key);
            row.map(|row| row.record.archive)
        };
        let [first, second] = self.lines.each_ref().map(time);
        Some(first? / second?)
    }

    /// Whether the goal is met, if both were timed.
    pub fn meets_goal(&self, rows: &[Row]) -> Option<bool> {
        self.ratio(rows).map(|ratio| ratio <= self.most)
    }
}

#[cfg(test)]
mod tests {
    use super::*;
    use crate::row::Record;

    fn row(name: &str, vector_bytes: usize, archive: f64) -> Row {
        Row {
            record: Record {
                name: name.to_string(),
                vector_bytes: Some(vector_bytes),
                archive,
                copy: None,
                strided: None,
            },
            kind: String::new(),
            second: None,
            part: Part::Predicates,
            room: None,
            goal: None,
        }
    }

    #[test]
    fn the_first_is_set_over_the_second() {
        let pair = |most| Pair {
            name: "one over other".to_string(),
            lines: ["one", "other"].map(str::to_string),
            vector_bytes: 256,
            most,
            part: Part::Predicates,
        };
        let rows = [
            row("one", 64, 1.0),
            row("other", 256, 40.0),
            row("one", 256, 20.0),
        ];
        assert_eq!(pair(0.5).ratio(&rows), Some(0.5));
        assert_eq!(pair(0.5).meets_goal(&rows), Some(true));
        assert_eq!(pair(0.4).meets_goal(&rows), Some(false));
        // One of another length is not the one that is meant.
        assert_eq!(pair(0.5).ratio(&rows[..2]), None);
        assert_eq!(pair(0.5).meets_goal(&rows[2..]), None);
    }
}
