//! Rows of bytes before and after a word, with the bytes that changed marked.

mod layout;

use crate::paint::{Style, View};
use layout::{Layout, Panes};
use std::ops::Range;

pub struct Row<'a> {
    /// The numbers that name the row, one for each heading.
    pub labels: Vec<String>,
    pub taken: bool,
    pub before: &'a [u8],
    pub after: &'a [u8],
}

pub struct Grid<'a> {
    pub title: String,
    /// What the labels of rows are.
    pub headings: Vec<&'static str>,
    /// What the numbers of columns are, and by how much they grow from group to group.
    pub column: (&'static str, usize),
    /// How many bytes stand together.
    pub group: usize,
    pub rows: Vec<Row<'a>>,
    /// The column that is taken.
    pub taken_group: Option<usize>,
}

/// Which of a row's contents a pane shows.
#[derive(Clone, Copy)]
enum Side {
    Before,
    After,
}

impl Row<'_> {
    fn changed(&self, byte: usize) -> bool {
        self.before.get(byte) != self.after.get(byte)
    }

    /// The numbers of its bytes that changed.
    pub fn changes(&self) -> impl Iterator<Item = usize> + '_ {
        (0..self.after.len()).filter(|&byte| self.changed(byte))
    }
}

impl Grid<'_> {
    /// The grid as lines.
    pub fn lines(&self, view: &View) -> Vec<String> {
        let layout = Layout::of(self, view);
        let mut lines = vec![format!(
            "  {}",
            view.paint.text(Style::Heading, &self.title)
        )];
        match layout.panes {
            Panes::Unchanged => self.block(&layout, view, &[("content", Side::After)], &mut lines),
            Panes::Beside => {
                let both = [("before", Side::Before), ("after", Side::After)];
                self.block(&layout, view, &both, &mut lines);
            }
            Panes::Stacked => {
                self.block(&layout, view, &[("before", Side::Before)], &mut lines);
                self.block(&layout, view, &[("after", Side::After)], &mut lines);
            }
        }
        lines.extend(layout.left_out(self));
        lines
            .iter()
            .map(|line| line.trim_end().to_string())
            .collect()
    }

    /// Panes side by side under their titles.
    fn block(&self, layout: &Layout, view: &View, panes: &[(&str, Side)], lines: &mut Vec<String>) {
        let faint = |text: &str| view.paint.text(Style::Faint, text.trim_end());
        let width = self.pane_width(&layout.groups);
        let titles = panes.iter().map(|(title, _)| format!("{title:width$}"));
        let headings: Vec<String> = self.headings.iter().map(|text| text.to_string()).collect();
        lines.push(faint(&layout.line(&self.label(&headings), titles)));

        let numbers = self.column_numbers(&layout.groups);
        let numbers = panes.iter().map(|_| numbers.clone());
        let corner = format!("{:>1$}", self.column.0, self.label_width());
        lines.push(faint(&layout.line(&corner, numbers)));

        for row in &self.rows[layout.rows.clone()] {
            let mark = if row.taken { ">" } else { " " };
            let label = format!("{mark}{}", &self.label(&row.labels)[1..]);
            let texts = panes
                .iter()
                .map(|&(_, side)| self.pane(row, &layout.groups, side, view));
            lines.push(layout.line(&faint(&label), texts));
            // Colour already tells changed bytes from the others.
            if !view.paint.colours && row.changes().next().is_some() {
                lines.extend(self.marks(row, layout, panes));
            }
        }
    }

    /// Labels of a row, or their headings, after a blank for the mark of a row that is taken.
    fn label(&self, texts: &[String]) -> String {
        let columns = texts.iter().enumerate();
        let label = columns.map(|(i, text)| format!(" {text:>0$}", self.column_width(i)));
        let label: String = label.collect();
        format!("{label:>0$}", self.label_width())
    }

    fn label_width(&self) -> usize {
        let labels: usize = (0..self.headings.len())
            .map(|i| 1 + self.column_width(i))
            .sum();
        labels.max(1 + self.column.0.len())
    }

    fn column_width(&self, heading: usize) -> usize {
        let labels = self.rows.iter().map(|row| row.labels[heading].len());
        labels
            .chain([self.headings[heading].len()])
            .max()
            .unwrap_or(0)
    }

    fn pane_width(&self, groups: &Range<usize>) -> usize {
        (groups.len() * (2 * self.group + 1)).saturating_sub(1)
    }

    /// How many groups a row has.
    fn groups(&self) -> usize {
        let longest = self.rows.iter().map(|row| row.after.len()).max();
        longest.unwrap_or(0).div_ceil(self.group)
    }

    fn unchanged(&self) -> bool {
        self.rows.iter().all(|row| row.before == row.after)
    }

    /// The bytes of a row, as text made by `of_byte` from each byte's number, groups apart.
    fn grouped(&self, groups: &Range<usize>, of_byte: impl Fn(usize) -> String) -> String {
        let group = |number: usize| {
            let bytes = number * self.group..(number + 1) * self.group;
            bytes.map(&of_byte).collect::<String>()
        };
        groups.clone().map(group).collect::<Vec<_>>().join(" ")
    }

    fn pane(&self, row: &Row, groups: &Range<usize>, side: Side, view: &View) -> String {
        let (bytes, style) = match side {
            Side::Before => (row.before, Style::Before),
            Side::After => (row.after, Style::After),
        };
        self.grouped(groups, |i| {
            let Some(byte) = bytes.get(i) else {
                return "  ".to_string();
            };
            let text = format!("{byte:02X}");
            if row.changed(i) {
                view.paint.text(style, &text)
            } else if row.taken || self.taken_group == Some(i / self.group) {
                view.paint.text(Style::Taken, &text)
            } else {
                text
            }
        })
    }

    /// A line under a row, with a mark under each byte of it that changed.
    fn marks(&self, row: &Row, layout: &Layout, panes: &[(&str, Side)]) -> Option<String> {
        let texts = panes.iter().map(|&(_, side)| {
            self.grouped(&layout.groups, |i| match side {
                Side::After if row.changed(i) => "^^".to_string(),
                _ => "  ".to_string(),
            })
        });
        let line = layout.line(&" ".repeat(self.label_width()), texts);
        (!line.trim().is_empty()).then_some(line)
    }

    /// The numbers of columns over their groups, the taken one marked; where groups are narrow only
    /// those that have room.
    fn column_numbers(&self, groups: &Range<usize>) -> String {
        let mut line = vec![' '; self.pane_width(groups)];
        let number = |group: usize| (group * self.column.1).to_string();
        let mut place = |group: usize, text: String| {
            let Some(last_start) = line.len().checked_sub(text.len()) else {
                return;
            };
            let start = ((group - groups.start) * (2 * self.group + 1)).min(last_start);
            let end = start + text.len();
            let around = start.saturating_sub(1)..line.len().min(end + 1);
            if line[around].iter().all(|&c| c == ' ') {
                line.splice(start..end, text.chars());
            }
        };
        if let Some(taken) = self.taken_group.filter(|taken| groups.contains(taken)) {
            place(taken, format!(">{}", number(taken)));
        }
        for group in groups.clone() {
            place(group, number(group));
        }
        line.into_iter().collect()
    }
}

#[cfg(test)]
mod tests;
