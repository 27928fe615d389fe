//! Whether a run ended as it must.

use std::process::Output;

#[derive(Debug, PartialEq)]
pub enum Verdict {
    /// Status 2, one message with file and line, no output.
    Refused,
    /// Status 0, output, no message.
    Ran,
    /// Status 3, output, one message with file and line: an expectation is not met.
    Failed,
}

/// The verdict on a run, or what is wrong with it. Only of an empty file can no line be named.
pub fn judge(output: &Output, name: &str, empty: bool) -> Result<Verdict, String> {
    let message = String::from_utf8(output.stderr.clone()).map_err(|error| error.to_string())?;
    if message.contains("panicked") {
        return Err(format!("a panic: {message}"));
    }
    match output.status.code() {
        Some(0) if !message.is_empty() => Err(format!("status 0 with a message: {message}")),
        Some(0) if output.stdout.is_empty() => Err("status 0 without output".to_string()),
        Some(0) => Ok(Verdict::Ran),
        Some(2) if !output.stdout.is_empty() => Err("status 2 with output".to_string()),
        Some(2) if is_fault(&message, name, empty) => Ok(Verdict::Refused),
        Some(3) if output.stdout.is_empty() => Err("status 3 without output".to_string()),
        Some(3) if is_fault(&message, name, false) => Ok(Verdict::Failed),
        Some(2 | 3) => Err(format!("a message of another form: {message}")),
        // No code means that a signal ended it.
        _ => Err(format!("{}: {message}", output.status)),
    }
}

/// Whether a message is one line that begins with the file and the line in it, and says something.
fn is_fault(message: &str, name: &str, empty: bool) -> bool {
    let one_line = message.ends_with('\n') && message.lines().count() == 1;
    let harmless = !message
        .trim_end_matches('\n')
        .contains(|c: char| c.is_control());
    let Some(rest) = message.strip_prefix(name).filter(|_| one_line && harmless) else {
        return false;
    };
    if empty {
        return rest == ": the file is empty\n";
    }
    let place = rest
        .strip_prefix(':')
        .and_then(|rest| rest.split_once(": "));
    place.is_some_and(|(line, text)| {
        line.parse::<usize>().is_ok_and(|line| line > 0) && text.len() > 10
    })
}

#[cfg(unix)]
mod tests {
    use super::*;
    use std::os::unix::process::ExitStatusExt;
    use std::process::ExitStatus;

    fn verdict(status: i32, stdout: &str, stderr: &str) -> Result<Verdict, String> {
        let output = Output {
            status: ExitStatus::from_raw(status),
            stdout: stdout.into(),
            stderr: stderr.into(),
        };
        judge(&output, "k.txt", false)
    }

    #[test]
    fn panics_signals_and_poor_messages_are_noticed() {
        let good = "k.txt:7: a word has exactly eight digits\n";
        assert_eq!(verdict(2 << 8, "", good), Ok(Verdict::Refused));
        assert_eq!(verdict(0, "done\n", ""), Ok(Verdict::Ran));
        assert_eq!(verdict(3 << 8, "done\n", good), Ok(Verdict::Failed));
        for (status, stdout, stderr) in [
            (101 << 8, "", "thread 'main' panicked at src/main.rs:1:1:\n"),
            (101 << 8, "", good),
            (
                2 << 8,
                "",
                "k.txt:7: thread 'main' panicked at src/main.rs\n",
            ),
            (6, "", good),
            (11, "", ""),
            (1 << 8, "", good),
            (2 << 8, "output", good),
            (2 << 8, "", ""),
            (2 << 8, "", "k.txt: a word has exactly eight digits\n"),
            (2 << 8, "", "k.txt:0: a word has exactly eight digits\n"),
            (2 << 8, "", "other.txt:7: a word has exactly eight digits\n"),
            (2 << 8, "", "k.txt:7: a word has exactly\neight digits\n"),
            (2 << 8, "", "k.txt:7: a word has \u{1b}[31m digits\n"),
            (3 << 8, "", good),
            (3 << 8, "done\n", ""),
            (0, "done\n", good),
            (0, "", ""),
        ] {
            assert!(
                verdict(status, stdout, stderr).is_err(),
                "{status} {stderr}"
            );
        }
    }
}
