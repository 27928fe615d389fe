//! How much of a grid is shown, and where.

use super::{Grid, Row};
use crate::paint::View;
use crate::wording::counted;
use std::ops::Range;

/// How many rows are shown of a grid that is not shown whole, and how many of them before and after
/// those that changed.
const MAX_ROWS: usize = 16;
const CONTEXT: usize = 2;

/// Blanks before the label of a row, between label and content, and between panes.
const MARGIN: &str = "  ";
const GAP: &str = "   ";

pub enum Panes {
    /// Nothing changed, so the content is shown once.
    Unchanged,
    Beside,
    Stacked,
}

pub struct Layout {
    pub panes: Panes,
    pub rows: Range<usize>,
    pub groups: Range<usize>,
}

impl Layout {
    pub fn of(grid: &Grid, view: &View) -> Layout {
        let total = grid.groups();
        let (rows, groups) = focus(grid);
        let beside = groups_that_fit(grid, view.width, 2);
        // Panes beside each other are easier to compare, so they may show less of what is the same.
        let panes = if grid.unchanged() {
            Panes::Unchanged
        } else if total <= beside || (!view.all && groups.len() + 2 <= beside) {
            Panes::Beside
        } else {
            Panes::Stacked
        };
        let room = match panes {
            Panes::Beside => beside,
            Panes::Unchanged | Panes::Stacked => groups_that_fit(grid, view.width, 1),
        };
        let all_rows = grid.rows.len();
        let whole = view.all || (all_rows <= MAX_ROWS && total <= room);
        if whole {
            let (rows, groups) = (0..all_rows, 0..total);
            return Layout {
                panes,
                rows,
                groups,
            };
        }
        let rows_shown = MAX_ROWS.min(rows.len() + 2 * CONTEXT);
        Layout {
            panes,
            rows: window(rows, all_rows, rows_shown),
            groups: window(groups, total, room),
        }
    }

    /// A line of a label and the texts of panes.
    pub fn line(&self, label: &str, panes: impl Iterator<Item = String>) -> String {
        let panes: Vec<String> = panes.collect();
        format!("{MARGIN}{label}{MARGIN}{}", panes.join(GAP))
    }

    /// What the window leaves out, if anything.
    pub fn left_out(&self, grid: &Grid) -> Option<String> {
        let (rows, groups) = (grid.rows.len(), grid.groups());
        let mut parts = Vec::new();
        if self.rows.len() < rows {
            parts.push(format!("{} of {rows} rows", rows - self.rows.len()));
        }
        if self.groups.len() < groups {
            let bytes = (groups - self.groups.len()) * grid.group;
            let all = groups * grid.group;
            parts.push(format!("{bytes} of the {all} bytes of each row"));
        }
        if parts.is_empty() {
            return None;
        }
        let parts = parts.join(" and ");
        // Where nothing changed, the contents alone are shown, and there is no change to miss.
        let hidden = match (grid.unchanged(), self.hidden_changes(grid)) {
            (true, _) => String::new(),
            (false, 0) => ", with no changed byte among them".to_string(),
            (false, hidden) => format!(", with {} among them", counted(hidden, "changed byte")),
        };
        Some(format!(
            "{MARGIN} left out: {parts}{hidden} (--all shows everything)"
        ))
    }

    fn hidden_changes(&self, grid: &Grid) -> usize {
        let rows = grid.rows.iter().enumerate();
        rows.map(|(number, row)| {
            let seen = |byte: &usize| {
                self.rows.contains(&number) && self.groups.contains(&(byte / grid.group))
            };
            row.changes().filter(|byte| !seen(byte)).count()
        })
        .sum()
    }
}

fn groups_that_fit(grid: &Grid, width: usize, panes: usize) -> usize {
    let fixed = 2 * MARGIN.len() + grid.label_width() + (panes - 1) * GAP.len();
    let pane = width.saturating_sub(fixed) / panes;
    ((pane + 1) / (2 * grid.group + 1)).max(1)
}

/// The rows and groups that one wants to see: those that changed, or if none did, those taken.
fn focus(grid: &Grid) -> (Range<usize>, Range<usize>) {
    let whole = 0..grid.groups();
    let changed = |row: &Row| {
        let groups = row.changes().map(|byte| byte / grid.group);
        hull(groups)
    };
    let rows = grid.rows.iter().enumerate();
    let changes: Vec<_> = rows
        .filter_map(|(i, row)| Some((i, changed(row)?)))
        .collect();
    if let Some(rows) = hull(changes.iter().map(|(row, _)| *row)) {
        let ends = changes
            .iter()
            .flat_map(|(_, groups)| [groups.start, groups.end - 1]);
        return (rows, hull(ends).unwrap_or(whole));
    }
    let taken = grid.rows.iter().enumerate().filter(|(_, row)| row.taken);
    let rows = hull(taken.map(|(i, _)| i)).unwrap_or(0..grid.rows.len());
    let groups = grid.taken_group.map_or(whole, |group| group..group + 1);
    (rows, groups)
}

/// The least range that has all the numbers in it, if there are any.
fn hull(numbers: impl Iterator<Item = usize>) -> Option<Range<usize>> {
    numbers.fold(None, |hull: Option<Range<usize>>, number| {
        let hull = hull.unwrap_or(number..number);
        Some(hull.start.min(number)..hull.end.max(number + 1))
    })
}

/// So many of the places as there is room for, with the focus in the middle, or its start if it is
/// longer than that.
fn window(focus: Range<usize>, total: usize, room: usize) -> Range<usize> {
    if total <= room {
        return 0..total;
    }
    let before = room.saturating_sub(focus.len()) / 2;
    let start = focus.start.saturating_sub(before).min(total - room);
    start..start + room
}

#[cfg(test)]
mod tests {
    use super::*;

    #[test]
    fn a_window_stays_within_and_has_the_focus_in_the_middle() {
        assert_eq!(window(3..4, 8, 16), 0..8);
        assert_eq!(window(30..34, 64, 16), 24..40);
        assert_eq!(window(0..1, 64, 16), 0..16);
        assert_eq!(window(63..64, 64, 16), 48..64);
        assert_eq!(window(0..64, 64, 16), 0..16);
    }

    #[test]
    fn a_hull_has_all_numbers() {
        assert_eq!(hull([].into_iter()), None);
        assert_eq!(hull([5, 2, 9].into_iter()), Some(2..10));
    }
}
