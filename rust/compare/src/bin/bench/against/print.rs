//! What is printed of two runs.

use super::{Change, Comparison};
use crate::row::Record;
use crate::table::{length, width};
use std::fmt::{self, Display, Formatter};

impl Display for Comparison<'_> {
    fn fmt(&self, f: &mut Formatter) -> fmt::Result {
        self.write_rows(f)?;
        self.write_counts(f)?;
        self.write_kinds(f)?;
        self.write_machine(f)?;
        write_lacking(f, "only this run has", &self.only_now)?;
        write_lacking(f, "only the earlier run has", &self.only_then)
    }
}

impl Comparison<'_> {
    fn write_rows(&self, f: &mut Formatter) -> fmt::Result {
        let width = width(self.both.iter().map(|both| both.now));
        writeln!(f, "the archive then and now, nanoseconds per call")?;
        writeln!(
            f,
            "{:<width$} {:>6} {:>9} {:>9} {:>8}",
            "operation", "length", "then", "now", "now/then"
        )?;
        for both in &self.both {
            let Record { name, archive, .. } = &both.now.record;
            writeln!(
                f,
                "{name:<width$} {:>6} {:>9.1} {archive:>9.1} {:>8.2}{}",
                length(&both.now.record),
                both.then.archive,
                both.ratio(),
                match both.change() {
                    Change::Faster => "  faster",
                    Change::Slower => "  slower",
                    Change::Same => "",
                }
            )?;
        }
        Ok(())
    }

    fn write_counts(&self, f: &mut Formatter) -> fmt::Result {
        writeln!(
            f,
            "{} rows faster, {} slower, {} the same within 5 %",
            self.count(Change::Faster),
            self.count(Change::Slower),
            self.count(Change::Same)
        )
    }

    fn write_kinds(&self, f: &mut Formatter) -> fmt::Result {
        let all = self.mean().map(|mean| ("all", self.both.len(), mean));
        let kinds = self.kinds().into_iter().chain(all);
        let lines: Vec<_> = kinds.collect();
        let width = lines.iter().map(|(kind, ..)| kind.len()).max();
        let width = width.unwrap_or_default().max("kind".len());
        writeln!(f, "geometric means of now/then")?;
        writeln!(f, "{:<width$} {:>5} {:>8}", "kind", "rows", "now/then")?;
        for (kind, rows, mean) in lines {
            writeln!(f, "{kind:<width$} {rows:>5} {mean:>8.3}")?;
        }
        Ok(())
    }

    /// What does not go through the archive tells whether the computer was as
    /// fast as then.
    fn write_machine(&self, f: &mut Formatter) -> fmt::Result {
        for (name, mean) in [
            ("the copies", self.mean_of(|record| record.copy)),
            ("the strided loops", self.mean_of(|record| record.strided)),
        ] {
            if let Some(mean) = mean {
                writeln!(
                    f,
                    "{name} beside them: {mean:.3}, 1 if the machine is as fast as then"
                )?;
            }
        }
        Ok(())
    }
}

fn write_lacking(f: &mut Formatter, which: &str, records: &[&Record]) -> fmt::Result {
    if !records.is_empty() {
        writeln!(f, "{} rows that {which}:", records.len())?;
    }
    for record in records {
        let width = records.iter().map(|record| record.name.len()).max();
        let width = width.unwrap_or_default();
        writeln!(f, "  {:<width$} {:>6}", record.name, length(record))?;
    }
    Ok(())
}
