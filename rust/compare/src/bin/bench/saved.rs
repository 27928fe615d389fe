//! The table as plain text, for a later run to read: a line that tells the
//! format, then a line for each row, its parts separated by tabs. A dash
//! stands where there is no number.

use crate::row::{Record, Row};
use std::collections::HashSet;
use std::fs::{self, OpenOptions};
use std::path::Path;

const HEAD: &str = "sme_move benchmark, format ";
/// To be counted up when rows are written in another way.
const FORMAT: u32 = 1;
const COLUMNS: &str = "name, vector length, archive ns, copy ns, strided ns";

/// What is wrong with a text, and in which of its lines.
#[derive(Debug, PartialEq, Eq)]
struct Malformed {
    line: usize,
    what: String,
}

/// Asks for the file before anything is timed, and changes nothing in it.
pub fn check_writable(path: &Path) -> Result<(), String> {
    let opened = OpenOptions::new().append(true).create(true).open(path);
    opened.map(|_| ()).map_err(of_file(path))
}

pub fn write(path: &Path, rows: &[Row]) -> Result<(), String> {
    fs::write(path, text(rows)).map_err(of_file(path))
}

/// The rows of a file. An error says which file and which line of it.
pub fn read(path: &Path) -> Result<Vec<Record>, String> {
    let text = fs::read_to_string(path).map_err(of_file(path))?;
    parse(&text).map_err(|Malformed { line, what }| format!("{}:{line}: {what}", path.display()))
}

fn of_file(path: &Path) -> impl FnOnce(std::io::Error) -> String + '_ {
    move |error| format!("{}: {error}", path.display())
}

fn text(rows: &[Row]) -> String {
    let rows = rows.iter().map(|row| line(&row.record));
    format!("{HEAD}{FORMAT}: {COLUMNS}\n") + &rows.collect::<String>()
}

fn line(record: &Record) -> String {
    let dash = || "-".to_string();
    let time = |ns: Option<f64>| ns.map_or_else(dash, |ns| format!("{ns:.3}"));
    let parts = [
        record.name.clone(),
        record
            .vector_bytes
            .map_or_else(dash, |bytes| bytes.to_string()),
        time(Some(record.archive)),
        time(record.copy),
        time(record.strided),
    ];
    parts.join("\t") + "\n"
}

fn parse(text: &str) -> Result<Vec<Record>, Malformed> {
    let mut lines = (1..).zip(text.lines());
    let head = lines.next().map_or("", |(_, head)| head);
    check_head(head).map_err(|what| Malformed { line: 1, what })?;
    let mut records = Vec::new();
    let mut last = 1;
    for (line, row) in lines {
        let record = parse_row(row).map_err(|what| Malformed { line, what })?;
        records.push(record);
        last = line;
    }
    if !text.ends_with('\n') {
        let what = "the line has no end, so the file may be cut off".to_string();
        return Err(Malformed { line: last, what });
    }
    check_distinct(&records)?;
    Ok(records)
}

fn check_head(head: &str) -> Result<(), String> {
    let format = head.strip_prefix(HEAD).and_then(|rest| {
        let (format, _) = rest.split_once(':')?;
        format.parse::<u32>().ok()
    });
    match format {
        Some(FORMAT) => Ok(()),
        Some(other) => Err(format!(
            "the table has format {other}, this program reads {FORMAT}"
        )),
        None => Err("not a table that --save has written".to_string()),
    }
}

fn parse_row(row: &str) -> Result<Record, String> {
    let parts: Vec<_> = row.split('\t').collect();
    let [name, vector_bytes, archive, copy, strided] = parts[..] else {
        return Err(format!("{} parts and not 5: {COLUMNS}", parts.len()));
    };
    if name.is_empty() {
        return Err("the name is missing".to_string());
    }
    Ok(Record {
        name: name.to_string(),
        vector_bytes: unless_dash(vector_bytes, length)?,
        archive: time(archive)?,
        copy: unless_dash(copy, time)?,
        strided: unless_dash(strided, time)?,
    })
}

fn unless_dash<T>(
    part: &str,
    read: impl Fn(&str) -> Result<T, String>,
) -> Result<Option<T>, String> {
    if part == "-" {
        return Ok(None);
    }
    read(part).map(Some)
}

fn length(part: &str) -> Result<usize, String> {
    let read = part.parse();
    read.map_err(|_| format!("'{part}' is no vector length"))
}

/// A time is to be divided by, so that it is above zero.
fn time(part: &str) -> Result<f64, String> {
    let read = part.parse().ok();
    let time = read.filter(|time: &f64| time.is_finite() && *time > 0.0);
    time.ok_or_else(|| format!("'{part}' is no time"))
}

/// An error at the first row that was there before.
fn check_distinct(records: &[Record]) -> Result<(), Malformed> {
    let mut seen = HashSet::new();
    for (line, record) in (2..).zip(records) {
        if !seen.insert(record.key()) {
            let what = format!("'{}' stands there for the second time", record.name);
            return Err(Malformed { line, what });
        }
    }
    Ok(())
}

#[cfg(test)]
mod tests {
    use super::*;
    use crate::row::Part;

    const HEADING: &str =
        "sme_move benchmark, format 1: name, vector length, archive ns, copy ns, strided ns\n";

    fn record(
        name: &str,
        vector_bytes: Option<usize>,
        archive: f64,
        beside: [Option<f64>; 2],
    ) -> Record {
        let [copy, strided] = beside;
        Record {
            name: name.to_string(),
            vector_bytes,
            archive,
            copy,
            strided,
        }
    }

    fn row(record: Record) -> Row {
        Row {
            record,
            kind: String::new(),
            second: None,
            part: Part::Words,
            room: None,
            goal: None,
        }
    }

    fn records() -> Vec<Record> {
        vec![
            record("load, m=1", Some(16), 20.5, [Some(4.125), Some(9.0)]),
            record("load, m=1", Some(256), 1234.567, [Some(4.5), None]),
            record("take", None, 400.0, [None, None]),
        ]
    }

    /// What is wrong with these lines behind the heading.
    fn malformed(lines: &str) -> (usize, String) {
        let Malformed { line, what } = parse(&format!("{HEADING}{lines}")).expect_err(lines);
        (line, what)
    }

    #[test]
    fn writes_a_line_for_each_row() {
        let rows: Vec<_> = records().into_iter().map(row).collect();
        let lines = "load, m=1\t16\t20.500\t4.125\t9.000\n\
                     load, m=1\t256\t1234.567\t4.500\t-\n\
                     take\t-\t400.000\t-\t-\n";
        assert_eq!(text(&rows), format!("{HEADING}{lines}"));
    }

    #[test]
    fn reads_what_it_writes() {
        let rows: Vec<_> = records().into_iter().map(row).collect();
        assert_eq!(parse(&text(&rows)), Ok(records()));
        assert_eq!(parse(&text(&[])), Ok(Vec::new()));
    }

    #[test]
    fn another_format_is_refused() {
        let other = HEADING.replace("format 1", "format 2");
        let Malformed { line, what } = parse(&other).expect_err("another format");
        assert_eq!(line, 1);
        assert_eq!(what, "the table has format 2, this program reads 1");
    }

    #[test]
    fn another_file_is_refused() {
        for text in ["", "\n", "format 1\n", "sme_move benchmark, format one:\n"] {
            let Malformed { line, what } = parse(text).expect_err(text);
            assert_eq!(line, 1);
            assert_eq!(what, "not a table that --save has written");
        }
    }

    #[test]
    fn malformed_rows_are_told_with_their_line() {
        let good = "a\t16\t1.0\t-\t-\n";
        let parts = |count| format!("{count} parts and not 5: {COLUMNS}");
        for (row, what) in [
            ("b\t16\t1.0\t-\n", parts(4)),
            ("b\t16\t1.0\t-\t-\t-\n", parts(6)),
            ("\n", parts(1)),
            ("\t16\t1.0\t-\t-\n", "the name is missing".to_string()),
            ("b\tx\t1.0\t-\t-\n", "'x' is no vector length".to_string()),
            ("b\t-1\t1.0\t-\t-\n", "'-1' is no vector length".to_string()),
            ("b\t16\t-\t-\t-\n", "'-' is no time".to_string()),
            ("b\t16\tfast\t-\t-\n", "'fast' is no time".to_string()),
            ("b\t16\t0.000\t-\t-\n", "'0.000' is no time".to_string()),
            ("b\t16\t1.0\tinf\t-\n", "'inf' is no time".to_string()),
            ("b\t16\t1.0\t-\tNaN\n", "'NaN' is no time".to_string()),
        ] {
            let lines = format!("{good}{row}c\t16\t1.0\t-\t-\n");
            assert_eq!(malformed(&lines), (3, what), "{row:?}");
        }
    }

    #[test]
    fn a_row_stands_there_once() {
        let lines = "a\t16\t1.0\t-\t-\na\t64\t1.0\t-\t-\na\t16\t2.0\t-\t-\n";
        let what = "'a' stands there for the second time".to_string();
        assert_eq!(malformed(lines), (4, what));
    }

    #[test]
    fn a_file_that_is_cut_off_is_noticed() {
        let what = "the line has no end, so the file may be cut off".to_string();
        assert_eq!(malformed("a\t16\t1.0\t-\t-\nb\t16\t1.0\t-\t1"), (3, what));
    }

    #[test]
    fn files_are_written_and_read() {
        let path = std::env::temp_dir().join(format!("bench-{}.txt", std::process::id()));
        let rows: Vec<_> = records().into_iter().map(row).collect();
        check_writable(&path).expect("a file can be made");
        write(&path, &rows).expect("it can be written");
        check_writable(&path).expect("it can be written again");
        assert_eq!(read(&path), Ok(records()));
        fs::write(&path, "other\n").expect("it can be written");
        let at = path.display();
        let error = read(&path).expect_err("no table");
        assert_eq!(
            error,
            format!("{at}:1: not a table that --save has written")
        );
        fs::remove_file(&path).expect("it can be removed");
        let error = read(&path).expect_err("no file");
        assert!(error.starts_with(&format!("{at}: ")), "{error}");
    }
}
