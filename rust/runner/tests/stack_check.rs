//! The switch of the stack check: with it off, a stack pointer that is no multiple of 16 is a base like any other.

mod common;

use common::piped;

/// A store and a load of row 0 of the tile of 1-byte elements, with the stack pointer as base.
const WORDS: [&str; 2] = ["E03F03E0", "E01F03E0"];

/// The row, and what every 16 bytes of memory hold, before the word.
const ROW: &str = "A0A1A2A3A4A5A6A7A8A9AAABACADAEAF";
const MEMORY: &str = "606162636465666768696A6B6C6D6E6F";

/// A script with the stack pointer at 1008 and 64 bytes of memory, with the lines that follow its word.
fn script(setting: &str, memory_address: &str, word: &str, expected: &[String]) -> String {
    let memory = MEMORY.repeat(4);
    format!(
        "vector-bytes 16\n{setting}\nmemory-address {memory_address}\nmemory {memory}\n\
         array 0 {ROW}\npredicate 0 FFFF\nregister 31 1008\nword {word}\n{}\n",
        expected.join("\n")
    )
}

/// Nothing fails in a strict run of the script.
#[track_caller]
fn holds(script: &str) {
    let output = piped(&["-", "--strict", "--quiet"], script.as_bytes());
    let text = String::from_utf8_lossy(&output.stdout);
    assert_eq!(output.status.code(), Some(0), "{script}{text}");
    assert!(text.ends_with(" met, 0 not met\n"), "{script}{text}");
}

/// Neither word does anything, and both get this answer.
fn refused(setting: &str, memory_address: &str, answer: &str) {
    let expected = [
        format!("expect answer {answer}"),
        format!("expect memory {memory_address} {}", MEMORY.repeat(4)),
        format!("expect array 0 {ROW}"),
    ];
    for word in WORDS {
        holds(&script(setting, memory_address, word, &expected));
    }
}

#[test]
fn with_the_check_on_the_stack_pointer_is_refused() {
    for setting in ["", "stack-check on"] {
        refused(setting, "1000", "6");
        // The check comes before that of the addresses.
        refused(setting, "2000", "6");
    }
}

#[test]
fn with_the_check_off_the_stack_pointer_is_a_base_like_any_other() {
    let [store, load] = WORDS;
    // Addresses 1008 to 1017 are half of the first 16 bytes and half of the second.
    let (first, second) = MEMORY.split_at(16);
    let stored = format!("{first}{ROW}{second}{}", MEMORY.repeat(2));
    let loaded = format!("{second}{first}");
    for (word, memory, row) in [
        (store, stored, ROW.to_string()),
        (load, MEMORY.repeat(4), loaded),
    ] {
        let expected = [
            "expect answer 0".to_string(),
            format!("expect memory 1000 {memory}"),
            format!("expect array 0 {row}"),
        ];
        holds(&script("stack-check off", "1000", word, &expected));
    }
}

#[test]
fn with_the_check_off_the_addresses_are_still_checked() {
    refused("stack-check off", "2000", "7 1008 0");
}

#[test]
fn the_report_tells_the_switch() {
    for (setting, switch) in [
        ("", "on"),
        ("stack-check on", "on"),
        ("stack-check off", "off"),
    ] {
        let output = piped(&["-"], script(setting, "1000", WORDS[0], &[]).as_bytes());
        let text = String::from_utf8_lossy(&output.stdout);
        let expected = format!(", array on, stack check {switch}, 64 bytes of memory from");
        let first = text.lines().next().unwrap_or_default();
        assert!(first.contains(&expected), "{first}");
    }
}
