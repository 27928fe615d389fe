//! What the program does, and its exit status.

use crate::arguments::{self, Command, Form, Running, Sheet, Task};
use crate::document::Document;
use crate::input::Source;
use crate::machine::Machine;
use crate::outputs::Outputs;
use crate::paint::{Paint, View};
use crate::report::{Brief, Report};
use crate::run::{Observer, Tally};
use crate::script::{self, Script};
use crate::take::Asked;
use crate::{decoding, encoding, map, map_svg, run, version, width};
use std::ffi::{OsStr, OsString};
use std::fs;
use std::io::{self, BufWriter, Write};
use std::process::ExitCode;

const HELP: &str = include_str!("help.txt");

/// Why the program ends without having done its task.
enum Failure {
    /// The input is wrong; nothing was run.
    Input(String),
    /// Output could not be written.
    Output(String),
    /// The reader of the output has left.
    Pipe,
    /// The script ran, and did not do what it should.
    Run(String),
}

impl From<io::Error> for Failure {
    fn from(error: io::Error) -> Failure {
        match error.kind() {
            io::ErrorKind::BrokenPipe => Failure::Pipe,
            _ => Failure::Output(format!("runner: output cannot be written: {error}")),
        }
    }
}

/// Does what the command line asks. The status is 0 if it was done, 1 if output could not be written, 2 if the
/// input is wrong and 3 if a script ran and did not do what it should.
pub fn main(arguments: impl Iterator<Item = OsString>) -> ExitCode {
    let command = arguments::parse(arguments)
        .map_err(|message| Failure::Input(format!("runner: {message} (--help says more)")));
    let (status, message) = match command.and_then(perform) {
        Ok(()) => return ExitCode::SUCCESS,
        Err(Failure::Input(message)) => (2, message),
        Err(Failure::Output(message)) => (1, message),
        Err(Failure::Pipe) => return ExitCode::from(1),
        Err(Failure::Run(message)) => (3, message),
    };
    // Where standard error is closed as well, the status has to do.
    let _ = writeln!(io::stderr(), "{message}");
    ExitCode::from(status)
}

fn perform(command: Command) -> Result<(), Failure> {
    let view = View {
        paint: Paint::chosen(command.color),
        width: command.width.unwrap_or_else(width::of_output),
        all: command.all,
    };
    let mut out = BufWriter::new(io::stdout().lock());
    let paint = view.paint;
    match command.task {
        Task::Help => out.write_all(HELP.as_bytes())?,
        Task::Version => out.write_all(version::text().as_bytes())?,
        Task::Run(running) => return run_script(&mut out, &view, &running),
        Task::Decode { level, words } => {
            for word in words {
                decoding::print(&mut out, word, level, paint)?;
            }
        }
        Task::Encode(groups) => {
            for numbers in groups {
                encoding::print(&mut out, numbers, paint)?;
            }
        }
        Task::Map { sheet } => {
            let print = |out: &mut _, vector_bytes| map::print(out, vector_bytes, paint);
            show(&mut out, &sheet, print, map_svg::svg)?
        }
        Task::Ask {
            question,
            held,
            sheet,
        } => {
            let asked = Asked::new(question, held);
            let print = |out: &mut _, vector_bytes| asked.print(out, vector_bytes, paint);
            show(&mut out, &sheet, print, |bytes| asked.svg(bytes))?
        }
    }
    Ok(out.flush()?)
}

/// Runs a script, writes the files that are asked for, also after failures, and tells of the first failure.
fn run_script(out: &mut impl Write, view: &View, running: &Running) -> Result<(), Failure> {
    let script = script_of(&running.source)?;
    let name = running.source.name();
    let (machine, tally) = {
        let (name, out) = (name.as_str(), &mut *out);
        let observer: &mut dyn Observer = match running.form {
            Form::Full => &mut Report { out, view, name },
            Form::Brief => &mut Brief { out, name },
            Form::Json => &mut Document::new(out, name),
        };
        run::run(observer, &script, running.strict)?
    };
    out.flush()?;
    write_outputs(&running.outputs, &script, &machine)?;
    verdict_on(&tally, &name)
}

fn verdict_on(tally: &Tally, name: &str) -> Result<(), Failure> {
    let Some((line, headline)) = &tally.first_failure else {
        return Ok(());
    };
    let more = match tally.unmet + tally.not_allowed - 1 {
        0 => String::new(),
        1 => " (1 more failure after it)".to_string(),
        more => format!(" ({more} more failures after it)"),
    };
    Err(Failure::Run(format!("{name}:{line}: {headline}{more}")))
}

fn write_outputs(outputs: &Outputs, script: &Script, machine: &Machine) -> Result<(), Failure> {
    if let Some(file) = &outputs.words {
        write_file(file, &script::listing_of(&script.steps))?;
    }
    if let Some(file) = &outputs.memory {
        write_file(file, &machine.memory)?;
    }
    if let Some(file) = &outputs.array {
        write_file(file, &machine.array())?;
    }
    Ok(())
}

fn script_of(source: &Source) -> Result<Script, Failure> {
    let text = source.text();
    text.and_then(|text| script::parse(&text, source.folder()))
        .map_err(|fault| Failure::Input(fault.in_file(&source.name())))
}

/// Prints a table of the array, or writes a drawing of it where that is wanted.
fn show<W: Write>(
    out: &mut W,
    sheet: &Sheet,
    print: impl Fn(&mut W, usize) -> io::Result<()>,
    svg: impl Fn(usize) -> String,
) -> Result<(), Failure> {
    match &sheet.drawing {
        None => Ok(print(out, sheet.vector_bytes)?),
        Some(file) => save(out, &svg(sheet.vector_bytes), file),
    }
}

fn save(out: &mut impl Write, svg: &str, file: &OsStr) -> Result<(), Failure> {
    if file == "-" {
        return Ok(out.write_all(svg.as_bytes())?);
    }
    write_file(file, svg.as_bytes())
}

fn write_file(file: &OsStr, bytes: &[u8]) -> Result<(), Failure> {
    fs::write(file, bytes).map_err(|error| {
        let name = file.to_string_lossy();
        Failure::Output(format!("{name}: cannot be written: {error}"))
    })
}

#[cfg(test)]
mod tests {
    use super::*;

    #[test]
    fn the_help_is_narrow() {
        assert!(HELP.lines().all(|line| line.chars().count() < 80));
    }
}
