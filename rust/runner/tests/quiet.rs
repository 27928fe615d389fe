//! Words that are not shown run in one call: a quiet run comes to what the full report and the JSON document say, in
//! which every word has a call of its own.

mod common;

use common::runner;
use std::fs;
use std::path::{Path, PathBuf};
use std::process::Output;

/// Two rows of a tile of 8-byte elements, a column of it, and a store of the latter row, which is outside memory where
/// register 1 is not 100; and a word that is no instruction.
const HEAD: &str = "vector-bytes 16
memory-address 100
memory 00000000 00000000 00000000 00000000
vector 0  1111111111111111 1212121212121212
vector 1  2121212121212121 2222222222222222
predicate 0  FFFF
register 1  100
";
const GOOD: [u32; 4] = [0xC0C00006, 0xC0C00027, 0xC0C282C2, 0xE0FF0027];
const NONE: u32 = 0xC000_0010;
const OUTSIDE: u32 = 0xE0FF_0007;

/// A folder for one test, empty.
fn folder(name: &str) -> PathBuf {
    let folder = Path::new(env!("CARGO_TARGET_TMPDIR")).join(name);
    let _ = fs::remove_dir_all(&folder);
    fs::create_dir_all(&folder).expect("the folder can be made");
    folder
}

/// What a run prints, and what it leaves in its files.
fn run(folder: &Path, options: &[&str]) -> (Output, [Vec<u8>; 3]) {
    let line = ["k.txt", "--words-out=w", "--memory-out=m", "--array-out=a"];
    let mut command = runner(&[&line, options].concat());
    let output = command.current_dir(folder).output().expect("it starts");
    let files = ["w", "m", "a"].map(|name| fs::read(folder.join(name)).expect("it is written"));
    (output, files)
}

/// What a full report has of failures, and its last line.
fn failures_in(report: &str) -> String {
    let mut failures = String::new();
    let mut failing = false;
    for line in report.lines() {
        failing = line.starts_with("k.txt:") || failing && line.starts_with("  ");
        if failing {
            failures += &format!("{line}\n");
        }
    }
    let last = report.lines().last().unwrap_or_default();
    failures + last + "\n"
}

/// Runs a script in each form, strict or not, and gives back what the quiet strict run prints.
#[track_caller]
fn same_in_each_form(folder: &Path, script: &str) -> String {
    fs::write(folder.join("k.txt"), script).expect("the file can be written");
    same_with(folder, &[]);
    same_with(folder, &["--strict"])
}

/// Runs the script of a folder in each form with these options, and gives back what the quiet run prints.
#[track_caller]
fn same_with(folder: &Path, options: &[&str]) -> String {
    let [quiet, full, json] =
        [&["--quiet"][..], &[], &["--json"]].map(|form| run(folder, &[form, options].concat()));
    let [status, full_status, json_status] =
        [&quiet, &full, &json].map(|(output, _)| (output.status.code(), &output.stderr));
    assert!(status == full_status && status == json_status);
    assert!(quiet.1 == full.1 && quiet.1 == json.1);
    let [quiet, full, json] = [quiet, full, json]
        .map(|(output, _)| String::from_utf8(output.stdout).expect("plain text"));
    assert_eq!(quiet, failures_in(&full));
    // The document has every word's own answer.
    let done = json.matches("\"answer\": 0,").count();
    let all = json.matches("\"answer_text\": ").count();
    let words = if all == 1 { "word" } else { "words" };
    let counts = format!("{all} {words}, {done} done, {} refused", all - done);
    let last = quiet.lines().last().unwrap_or_default();
    assert!(last.starts_with(&counts), "{last}");
    quiet
}

fn words(words: &[u32]) -> String {
    let word = |word: &u32| format!(" {word:08X}");
    format!("word{}\n", words.iter().map(word).collect::<String>())
}

#[test]
fn refused_words_are_told_in_each_form() {
    let folder = folder("quiet-refused");
    let [one, two, three, four] = GOOD;
    for (listed, refused) in [
        (&[one, two, three, four][..], 0),
        (&[NONE, one, two], 1),
        (&[one, two, OUTSIDE], 1),
        (&[one, NONE, OUTSIDE, NONE, four, three], 3),
        (&[NONE, NONE, one, OUTSIDE], 3),
        (&[OUTSIDE, NONE, OUTSIDE], 3),
        (&[NONE], 1),
    ] {
        // OUTSIDE goes by register 0, which holds an address below memory.
        let script = format!("{HEAD}{}", words(listed));
        let printed = same_in_each_form(&folder, &script);
        assert_eq!(printed.matches("k.txt:8: word ").count(), refused);
        let lines = listed.iter().map(|word| words(&[*word]));
        let script = format!("{HEAD}{}", lines.collect::<String>());
        let printed = same_in_each_form(&folder, &script);
        assert_eq!(printed.matches("  answer   ").count(), refused);
    }
}

#[test]
fn expectations_are_told_in_each_form() {
    let folder = folder("quiet-expectations");
    let [one, two, three, four] = GOOD;
    let script = [
        HEAD,
        &words(&[one, two, NONE]),
        "expect answer 3\n",
        &words(&[NONE, three]),
        "expect answer 3\nexpect vector 2 1111111111111111 2121212121212121\n",
        &words(&[OUTSIDE]),
        &words(&[four, OUTSIDE]),
        "expect answer 7 0 0\nexpect memory 108 22222222 22222223\n",
    ];
    let printed = same_in_each_form(&folder, &script.concat());
    let last = "8 words, 4 done, 4 refused (2 not allowed); 5 expectations, 3 met, 2 not met";
    assert_eq!(printed.lines().last(), Some(last));
}

/// Memory that ends too high is refused before any word, and so each word is.
#[test]
fn words_are_refused_one_by_one_where_no_call_is_done() {
    let folder = folder("quiet-high");
    for setting in [
        "memory-address FFFFFFFFFFFFFFF1",
        "streaming off",
        "level 0",
    ] {
        let high = setting.starts_with("memory");
        let others = if high { "" } else { "memory-address 100\n" };
        let head = HEAD.replace("memory-address 100\n", &format!("{setting}\n{others}"));
        let printed = same_in_each_form(&folder, &format!("{head}{}", words(&GOOD)));
        assert!(printed.ends_with("\n4 words, 0 done, 4 refused (4 not allowed)\n"));
    }
}

/// Seldom refused, often, and always. The report of so many words is long, so this is not run twice.
#[test]
fn a_long_file_of_words_comes_to_the_same_in_each_form() {
    const COUNT: usize = 70_000;
    let folder = folder("quiet-long");
    let zeros = "0".repeat(32);
    let script = format!("{HEAD}words-file words\nexpect vector 31 {zeros}\n");
    fs::write(folder.join("k.txt"), script).expect("the file can be written");
    for (apart, refused) in [(30_000, 3), (3, 23_334), (1, COUNT)] {
        let word = |number: usize| match number.is_multiple_of(apart) {
            true => [NONE, OUTSIDE][number % 2],
            false => GOOD[number % 4],
        };
        let listing = (0..COUNT).flat_map(|number| word(number).to_le_bytes());
        let listing: Vec<u8> = listing.collect();
        fs::write(folder.join("words"), &listing).expect("the file can be written");
        let printed = same_with(&folder, &["--strict"]);
        let done = COUNT - refused;
        let counts =
            format!("{COUNT} words, {done} done, {refused} refused ({refused} not allowed); ");
        let last = printed.lines().last().unwrap_or_default();
        assert!(last.starts_with(&counts), "{last}");
        assert_eq!(fs::read(folder.join("w")).expect("it is written"), listing);
    }
    fs::remove_dir_all(&folder).expect("the folder is there");
}
