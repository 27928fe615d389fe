//! The runner as a test tool: what expectations, refusals and files of bytes come to.

mod common;

use common::{piped, runner};
use std::fs;
use std::path::{Path, PathBuf};
use std::process::Output;

/// Two rows of a tile of 8-byte elements in, its first column out; then a store that is outside.
const KERNEL: &str = "vector-bytes 16
memory-address 100
memory 00000000 00000000 00000000 00000000
vector 0  1111111111111111 1212121212121212
vector 1  2121212121212121 2222222222222222
predicate 0  FFFF
word C0C00006 C0C00027
word C0C282C2
register 1  100
word E0FF0027
register 1  101
word E0FF0027
";

#[track_caller]
fn ends(output: &Output, status: i32, stdout: &str, stderr: &str) {
    let text = |bytes: &[u8]| String::from_utf8_lossy(bytes).into_owned();
    let found = (text(&output.stdout), text(&output.stderr));
    assert_eq!(found, (stdout.to_string(), stderr.to_string()));
    assert_eq!(output.status.code(), Some(status));
}

/// A run of the kernel and these lines in brief.
fn brief(lines: &str, options: &[&str]) -> Output {
    let arguments = [&["-", "--quiet"], options].concat();
    piped(&arguments, format!("{KERNEL}{lines}").as_bytes())
}

#[test]
fn expectations_that_are_met_are_counted() {
    let lines = "expect answer 7 110 1\n\
                 expect answer 7 110\n\
                 expect answer 7\n\
                 expect vector 2 1111111111111111 2121212121212121\n\
                 expect array 11 0000000000000000 2222222222222222\n\
                 expect tile 8:3 horizontal 1 0000000000000000 2222222222222222\n\
                 expect tile 8:3 vertical 1 1212121212121212 2222222222222222\n\
                 expect tile 16:11 vertical 0 0000000000000000 2222222222222222\n\
                 expect memory 108 22222222 22222222\n";
    let summary = "5 words, 4 done, 1 refused; 9 expectations, 9 met, 0 not met\n";
    ends(&brief(lines, &[]), 0, summary, "");
    ends(&brief(lines, &["--strict"]), 0, summary, "");
}

/// Expectations that are not met, and what is printed of them.
const DIFFERENCES: [(&str, &str); 8] = [
        (
            "vector 2 1111111111111111 2121312121212122",
            "vector register 2 is not as expected\n  \
             expected 11111111 11111111 21213121 21212122\n  \
             found    11111111 11111111 21212121 21212121\n  \
             first    difference in byte 10: 31 expected, 21 found; 2 of 16 bytes differ\n",
        ),
        (
            "tile 8:3 vertical 1 1212121212121212 2222022222222222",
            "vertical slice 1 of tile 3 of 8-byte elements is not as expected\n  \
             expected 12121212 12121212 22220222 22222222\n  \
             found    12121212 12121212 22222222 22222222\n  \
             first    difference in byte 2 of element 1: 02 expected, 22 found; 1 of 16 bytes differ\n",
        ),
        (
            "memory 106 00002221",
            "memory from address 0000000000000106 is not as expected\n  \
             expected 00002221\n  \
             found    00002222\n  \
             first    difference in byte 3, at address 0000000000000109: 21 expected, 22 found; \
             1 of 4 bytes differ\n",
        ),
        (
            "answer 0",
            "the answer is not as expected\n  \
             expected 0: done\n  \
             found    7: address 0000000000000110 of element 1 is not in memory\n",
        ),
        (
            "answer 5",
            "the answer is not as expected\n  \
             expected 5: the array is off\n  \
             found    7: address 0000000000000110 of element 1 is not in memory\n",
        ),
        (
            "answer 7 FF",
            "the answer is not as expected\n  \
             expected 7: address 00000000000000FF is not in memory\n  \
             found    7: address 0000000000000110 of element 1 is not in memory\n",
        ),
        (
            "answer 7 FF 1",
            "the answer is not as expected\n  \
             expected 7: address 00000000000000FF of element 1 is not in memory\n  \
             found    7: address 0000000000000110 of element 1 is not in memory\n",
        ),
        (
            "answer 7 110 0",
            "the answer is not as expected\n  \
             expected 7: address 0000000000000110 of element 0 is not in memory\n  \
             found    7: address 0000000000000110 of element 1 is not in memory\n",
        ),
];

#[test]
fn the_first_difference_is_shown() {
    for (line, details) in DIFFERENCES {
        let output = brief(&format!("expect {line}\n"), &[]);
        let summary = "5 words, 4 done, 1 refused; 1 expectation, 0 met, 1 not met\n";
        let headline = details.lines().next().unwrap_or_default();
        ends(
            &output,
            3,
            &format!("standard input:13: {details}{summary}"),
            &format!("standard input:13: {headline}\n"),
        );
    }
}

#[test]
fn of_many_bytes_the_row_with_the_first_difference_is_shown() {
    let script = format!(
        "vector-bytes 64\nmemory {}\nword 00000000\nexpect memory 0 {}01{}\n",
        "00".repeat(64),
        "00".repeat(37),
        "00".repeat(26)
    );
    let output = piped(&["-", "--quiet"], script.as_bytes());
    let text = String::from_utf8_lossy(&output.stdout);
    assert!(text.contains("\n  expected 00000000 00010000 00000000 00000000 (bytes 32 to 47)\n"));
    assert!(text.contains("\n  found    00000000 00000000 00000000 00000000 (bytes 32 to 47)\n"));
    assert!(text.contains("\n  first    difference in byte 37, at address 0000000000000025: "));
}

#[test]
fn a_strict_run_fails_where_no_expectation_allows_a_refusal() {
    let summary = "5 words, 4 done, 1 refused\n";
    ends(&brief("", &[]), 0, summary, "");
    let failure =
        "standard input:12: word 5, E0FF0027, is refused, and no 'expect answer' allows it";
    let answer = "  answer   7: address 0000000000000110 of element 1 is not in memory";
    let summary = "5 words, 4 done, 1 refused (1 not allowed)\n";
    let stdout = format!("{failure}\n{answer}\n{summary}");
    ends(
        &brief("", &["--strict"]),
        3,
        &stdout,
        &format!("{failure}\n"),
    );
    // An expectation of something else, or of another word's answer, allows nothing.
    let lines = "expect memory 100 00\nword C0C00006\nexpect answer 0\n";
    assert_eq!(brief(lines, &[]).status.code(), Some(0));
    assert_eq!(brief(lines, &["--strict"]).status.code(), Some(3));
}

#[test]
fn a_full_report_has_expectations_in_their_places() {
    let lines = "expect answer 7\nexpect vector 2 11111111111111111111111111111111\n";
    let output = piped(&["-"], format!("{KERNEL}{lines}").as_bytes());
    assert_eq!(output.status.code(), Some(3));
    let text = String::from_utf8(output.stdout).expect("plain text");
    let (_, after) = text.split_once("word 5: ").expect("there are five words");
    let (_, after) = after.split_once("\n\n").expect("an empty line ends it");
    let expected = "line 13: the answer is as expected\n\n\
                    standard input:14: vector register 2 is not as expected\n  expected 11111111";
    assert!(after.starts_with(expected), "{after}");
}

/// A folder for one test, empty.
fn folder(name: &str) -> PathBuf {
    let folder = Path::new(env!("CARGO_TARGET_TMPDIR")).join(name);
    let _ = fs::remove_dir_all(&folder);
    fs::create_dir_all(&folder).expect("the folder can be made");
    folder
}

fn run_in(folder: &Path, arguments: &[&str]) -> Output {
    let mut command = runner(arguments);
    command.current_dir(folder);
    command.output().expect("the program starts")
}

#[test]
fn bytes_go_out_to_files_and_come_in_from_them() {
    let folder = folder("files");
    fs::write(folder.join("kernel.txt"), KERNEL).expect("the file can be written");
    let line = "kernel.txt --quiet --words-out w --memory-out m --array-out=a";
    let output = run_in(&folder, &line.split(' ').collect::<Vec<_>>());
    ends(&output, 0, "5 words, 4 done, 1 refused\n", "");
    let read = |name| fs::read(folder.join(name)).expect("the file is there");
    let words = [
        0xC0C00006_u32,
        0xC0C00027,
        0xC0C282C2,
        0xE0FF0027,
        0xE0FF0027,
    ];
    assert_eq!(read("w"), words.map(u32::to_le_bytes).concat());
    assert_eq!(read("m"), [[0; 8], [0x22; 8]].concat());
    let mut array = vec![0; 256];
    array[56..64].fill(0x12);
    array[184..192].fill(0x22);
    assert_eq!(read("a"), array);

    // What went out comes in, from the script's folder and not from where the program runs.
    let script = "vector-bytes 16\nmemory 0A\nmemory-file m\narray-file  a # all of it\n\
                  predicate 0 0100\nregister 1 11\nwords-file w\nexpect answer 7 11\nexpect memory 0 0A00\nexpect memory 9 22\n\
                  expect tile 8:3 vertical 1 1212121212121212 2222222222222222\n";
    fs::write(folder.join("again.txt"), script).expect("the file can be written");
    let name = folder.join("again.txt");
    let name = name.to_str().expect("the folder's name is text");
    let output = run_in(Path::new("/"), &[name, "--quiet"]);
    let summary = "5 words, 3 done, 2 refused; 4 expectations, 4 met, 0 not met\n";
    ends(&output, 0, summary, "");
    let output = run_in(&folder, &["again.txt"]);
    let text = String::from_utf8(output.stdout).expect("plain text");
    assert!(text.contains("word 3: C0C282C2 (line 7, byte 8 of the file)\n"));
}

/// Lines that name the files below, and what is wrong with them.
const WRONG_FILES: [(&str, &str); 10] = [
    ("words-file none", "'none' is empty"),
    ("memory-file none", "'none' is empty"),
    ("array-file none", "'none' is empty"),
    (
        "words-file seven",
        "'seven' has 7 bytes: a word has four, and 3 are left after the last",
    ),
    ("array-file seven", "'seven' has 7 bytes; the array has 256"),
    (
        "array-file array",
        "'array' has more than the 256 bytes that there is room for",
    ),
    (
        "memory-file more",
        "'more' has more than the 67108864 bytes that there is room for",
    ),
    (
        "words-file words",
        "'words' has more than the 4194304 bytes that there is room for",
    ),
    ("memory-file folder", "'folder' cannot be read: "),
    ("memory-file most", "the script ends without a word"),
];

#[test]
fn files_of_bytes_are_checked() {
    let folder = folder("wrong-files");
    let sized = |name: &str, length: u64| {
        let file = fs::File::create(folder.join(name)).expect("the file can be made");
        file.set_len(length).expect("the file can grow");
    };
    sized("none", 0);
    sized("seven", 7);
    sized("array", 257);
    sized("most", 64 << 20);
    sized("more", (64 << 20) + 1);
    sized("words", (4 << 20) + 4);
    fs::create_dir(folder.join("folder")).expect("the folder can be made");
    for (line, message) in WRONG_FILES {
        let script = format!("vector-bytes 16\n{line}\n");
        fs::write(folder.join("k.txt"), script).expect("the file can be written");
        let output = run_in(&folder, &["k.txt"]);
        let found = String::from_utf8_lossy(&output.stderr);
        assert!(found.starts_with(&format!("k.txt:2: {message}")), "{found}");
        assert_eq!(output.status.code(), Some(2));
        assert!(output.stdout.is_empty());
    }
    let script = "vector-bytes 16\nmemory-file most\nmemory 00\nword 00000000\n";
    fs::write(folder.join("k.txt"), script).expect("the file can be written");
    let message = "k.txt:3: memory has at most 67108864 bytes\n";
    ends(&run_in(&folder, &["k.txt"]), 2, "", message);
    fs::remove_dir_all(&folder).expect("the folder is there");
}

#[test]
fn a_file_that_cannot_be_written_is_said() {
    let folder = folder("outputs");
    fs::write(folder.join("kernel.txt"), KERNEL).expect("the file can be written");
    for option in ["--words-out", "--memory-out", "--array-out"] {
        let output = run_in(
            &folder,
            &[option, "no/such/folder", "--quiet", "kernel.txt"],
        );
        assert_eq!(output.status.code(), Some(1));
        assert!(output
            .stderr
            .starts_with(b"no/such/folder: cannot be written: "));
        let output = run_in(&folder, &[option, "-"]);
        let message = format!("runner: {option} takes a file, not - (--help says more)\n");
        ends(&output, 2, "", &message);
    }
}

#[test]
fn no_output_costs_a_script_or_another_output() {
    let folder = folder("overwriting");
    fs::write(folder.join("kernel.txt"), KERNEL).expect("the file can be written");
    for (line, message) in [
        (
            "--words-out kernel.txt kernel.txt",
            "--words-out would overwrite the script",
        ),
        (
            "--array-out ../overwriting/kernel.txt ./kernel.txt",
            "--array-out would overwrite the script",
        ),
        // The script's name was forgotten, or taken for the output's.
        (
            "--memory-out kernel.txt",
            "--memory-out goes only with a script",
        ),
        (
            "--words-out w --memory-out ./w kernel.txt",
            "--words-out and --memory-out name one file",
        ),
    ] {
        let output = run_in(&folder, &line.split(' ').collect::<Vec<_>>());
        ends(
            &output,
            2,
            "",
            &format!("runner: {message} (--help says more)\n"),
        );
    }
    let kept = fs::read_to_string(folder.join("kernel.txt"));
    assert_eq!(kept.expect("the script is there"), KERNEL);
    fs::remove_dir_all(&folder).expect("the folder is there");
}
