//! The program's exit status, its messages, and where its output goes.

mod common;

use common::{piped, runner};
use std::fs::File;
use std::io::Write;
use std::process::{Output, Stdio};

const SCRIPT: &[u8] =
    b"vector-bytes 16\npredicate 0 FFFF\nvector 0 0101010101010101 0101010101010101\n\
                        word C0000000\n";

fn run(arguments: &[&str]) -> Output {
    runner(arguments).output().expect("the program starts")
}

#[track_caller]
fn refused(output: &Output, message: &str) {
    assert_eq!(output.status.code(), Some(2));
    assert!(output.stdout.is_empty());
    assert_eq!(
        String::from_utf8_lossy(&output.stderr),
        format!("{message}\n")
    );
}

#[test]
fn a_script_can_come_from_standard_input() {
    let output = piped(&["-"], SCRIPT);
    assert_eq!(output.status.code(), Some(0));
    assert!(output.stdout.ends_with(b"\n1 word, 1 done, 0 refused\n"));
    refused(&piped(&["-"], b""), "standard input: the file is empty");
    let message = "standard input:2: a word has exactly eight hexadecimal digits; 'C08000' has 6";
    refused(&piped(&["-"], b"vector-bytes 16\nword C08000\n"), message);
}

#[test]
fn a_fault_at_the_end_keeps_the_beginning_from_being_run() {
    let script = [SCRIPT, b"word C0000000\nword C00000\n"].concat();
    let message = "standard input:6: a word has exactly eight hexadecimal digits; 'C00000' has 6";
    refused(&piped(&["-"], &script), message);
}

#[test]
fn files_that_cannot_be_read_are_refused() {
    let output = run(&["no-such-file.txt"]);
    assert_eq!(output.status.code(), Some(2));
    assert!(output
        .stderr
        .starts_with(b"no-such-file.txt: cannot be read: "));
    assert_eq!(run(&[env!("CARGO_TARGET_TMPDIR")]).status.code(), Some(2));
}

#[test]
fn a_file_that_is_too_long_is_refused() {
    let name = concat!(env!("CARGO_TARGET_TMPDIR"), "/long.txt");
    let file = File::create(name).expect("the file can be made");
    file.set_len((16 << 20) + 1).expect("the file can grow");
    refused(
        &run(&[name]),
        &format!("{name}: the file has more than 16 MiB"),
    );
    std::fs::remove_file(name).expect("the file is there");
}

#[test]
fn a_wrong_command_line_is_refused() {
    refused(
        &run(&["--bad"]),
        "runner: there is no option '--bad' (--help says more)",
    );
}

#[test]
fn numbers_are_encoded() {
    let line = "--encode 1 4 1 2 1 13 3 5 0 0 1 4 0 0 0 3 8 0 11 0 0 2";
    let output = run(&line.split(' ').collect::<Vec<_>>());
    assert_eq!(output.status.code(), Some(0));
    let expected = "C080ACA9\n  \
         meaning  move to tile: 4-byte elements, tile 2, vertical; from vector register 5, predicate 3\n  \
         fields   kind 1, element bytes 4, direction 1, tile 2, offset 1\n           \
         index register 13, predicate 3, first vector register 5\n           \
         base register 0, offset register 0, vector registers 1\n  \
         decodes  to the same numbers, from level 1 on\n\
         4 0 0 0 3 8 0 11 0 0 2\n  \
         refused  8: no word has these numbers\n";
    assert_eq!(String::from_utf8_lossy(&output.stdout), expected);
}

#[test]
fn the_version_is_told() {
    let output = run(&["--version"]);
    assert_eq!(output.status.code(), Some(0));
    let first = concat!("runner ", env!("CARGO_PKG_VERSION"), "\nsme_move ");
    assert!(output.stdout.starts_with(first.as_bytes()));
}

#[test]
fn colour_is_for_terminals_unless_asked_for() {
    let coloured = |arguments: &[&str]| piped(arguments, SCRIPT).stdout.contains(&0x1B);
    assert!(!coloured(&["-"]));
    assert!(!coloured(&["-", "--color", "auto"]));
    assert!(coloured(&["-", "--color", "always"]));
    assert!(!coloured(&["-", "--color=never"]));
    assert!(run(&["--map", "--color", "always"]).stdout.contains(&0x1B));
    assert!(run(&["--take", "1", "--color", "always"])
        .stdout
        .contains(&0x1B));
}

#[test]
fn a_closed_pipe_ends_the_program_quietly() {
    let mut child = runner(&["-"])
        .stdin(Stdio::piped())
        .stdout(Stdio::piped())
        .stderr(Stdio::piped())
        .spawn()
        .expect("the program starts");
    // It writes nothing before it has read its script, and that comes after the pipe is closed.
    drop(child.stdout.take());
    let mut script = child.stdin.take().expect("standard input is piped");
    script.write_all(SCRIPT).expect("the script is read");
    drop(script);
    let output = child.wait_with_output().expect("the program ends");
    assert_eq!(
        (
            output.status.code(),
            String::from_utf8_lossy(&output.stderr).as_ref()
        ),
        (Some(1), "")
    );
}

#[test]
#[cfg(target_os = "linux")]
fn output_that_cannot_be_written_is_said() {
    let full = File::options()
        .write(true)
        .open("/dev/full")
        .expect("a full device");
    let output = runner(&["--map"])
        .stdout(full)
        .output()
        .expect("the program starts");
    assert_eq!(output.status.code(), Some(1));
    assert!(output
        .stderr
        .starts_with(b"runner: output cannot be written: "));
    let output = run(&["--map", "--svg", "/dev/full"]);
    assert_eq!(output.status.code(), Some(1));
    assert!(output.stderr.starts_with(b"/dev/full: cannot be written: "));
}

#[test]
fn every_answer_to_a_request_for_a_tile_is_printed() {
    // Seventeen tiles: the unit refuses them, not the command line.
    let many = ["16:0"; 17];
    for (bytes, held, expected) in [
        ("2", &["4:0"][..], "0: done"),
        ("12", &[], "8: no element has 12 bytes"),
        ("12", &many, "8: no element has 12 bytes"),
        (
            "2",
            &["4:0", "16:15"],
            "13: no tile of 2-byte elements is free",
        ),
        (
            "2",
            &["4:0", "4:4"],
            "16: a held tile does not exist, or two share bytes",
        ),
        (
            "2",
            &many,
            "16: a held tile does not exist, or two share bytes",
        ),
    ] {
        let output = run(&[&["--take", bytes], held].concat());
        assert_eq!(output.status.code(), Some(0));
        let text = String::from_utf8(output.stdout).expect("the output is text");
        let line = text.lines().find(|line| line.starts_with("  answer"));
        assert_eq!(line, Some(format!("  answer   {expected}").as_str()));
    }
}

#[test]
fn every_answer_that_a_script_can_get_is_printed() {
    let answer = |script: &str| {
        let output = piped(&["-"], script.as_bytes());
        assert_eq!(output.status.code(), Some(0));
        let text = String::from_utf8(output.stdout).expect("the output is text");
        let line = text.lines().find(|line| line.starts_with("  answer"));
        line.expect("there is an answer").to_string()
    };
    let stack = "vector-bytes 16\npredicate 0 0100\nregister 31 8\nword E03F03E0";
    let outside = "vector-bytes 16\npredicate 0 0100\nregister 31 10\nword E03F03E0";
    // Element 0 of 8 bytes begins one byte before memory ends.
    let straddling = "vector-bytes 16\nmemory 00\npredicate 0 0100\nword E0DF0020";
    let memory = "memory-address FFFFFFFFFFFFFFFF\nmemory 0000\nword C0000000";
    for (script, expected) in [
        ("vector-bytes 16\nword C0000000", "0: done"),
        (
            &format!("vector-bytes 16\n{memory}"),
            "2: memory ends above address FFFFFFFFFFFFFFFF",
        ),
        (
            "vector-bytes 16\nword C0000010",
            "3: the word is no instruction of this level",
        ),
        (
            "vector-bytes 16\nstreaming off\narray off\nword C0000000",
            "4: streaming mode is off",
        ),
        (
            "vector-bytes 16\narray off\nword C0000000",
            "5: the array is off",
        ),
        (stack, "6: the stack pointer is no multiple of 16"),
        (
            outside,
            "7: address 0000000000000010 of element 0 is not in memory",
        ),
        (
            straddling,
            "7: address 0000000000000001 of element 0 is not in memory",
        ),
    ] {
        assert_eq!(answer(script), format!("  answer   {expected}"));
    }
}
