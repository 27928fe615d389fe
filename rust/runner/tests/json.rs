//! The JSON document of a run: it parses, has the documented shape, and says what happened.

mod common;
#[path = "json/parser.rs"]
mod parser;

use common::{piped, runner};
use parser::{parse, Value};
use sme_move::decode_fields;
use std::collections::BTreeSet;
use std::fs;
use std::path::{Path, PathBuf};

const SCRIPTS: [&str; 9] = [
    "access", "array", "fault", "fetch", "large", "long", "refused", "store", "top",
];

const TOP: [&str; 8] = [
    "format",
    "versions",
    "script",
    "settings",
    "words",
    "expectations",
    "end",
    "summary",
];
const SETTINGS: [&str; 8] = [
    "vector_bytes",
    "level",
    "streaming",
    "array",
    "memory_address",
    "memory_bytes",
    "stack_check",
    "largest_vector_bytes",
];
const WORD: [&str; 12] = [
    "number",
    "line",
    "file_byte",
    "word",
    "meaning",
    "numbers",
    "answer",
    "answer_text",
    "address",
    "element",
    "changed",
    "failure",
];
const NUMBERS: [&str; 11] = [
    "kind",
    "element_bytes",
    "direction",
    "tile",
    "offset",
    "index_register",
    "predicate",
    "first_vector_register",
    "base_register",
    "offset_register",
    "vector_registers",
];
const EXPECTATION: [&str; 5] = ["line", "word", "about", "met", "difference"];
const BYTES_DIFFER: [&str; 4] = ["first_byte", "bytes", "expected", "found"];
const ANSWERS_DIFFER: [&str; 6] = [
    "expected",
    "expected_address",
    "expected_element",
    "found",
    "found_address",
    "found_element",
];
const SUMMARY: [&str; 7] = [
    "words",
    "done",
    "refused",
    "not_allowed",
    "expectations",
    "not_met",
    "failed",
];

fn document(stdout: Vec<u8>) -> Value {
    let text = String::from_utf8(stdout).expect("the document is UTF-8");
    let value = parse(&text).unwrap_or_else(|fault| panic!("{fault}\n{text}"));
    shape(&value);
    value
}

/// Every member that is documented is there, in order, and no other.
fn shape(document: &Value) {
    assert_eq!(document.keys(), TOP);
    assert_eq!(document.get("format").number(), 1);
    assert_eq!(document.get("settings").keys(), SETTINGS);
    document.get("settings").get("memory_address").address();
    assert_eq!(document.get("summary").keys(), SUMMARY);
    assert_eq!(document.get("end").keys(), ["vectors", "memory"]);
    let level = document.get("settings").get("level").number();
    let words = document.get("words").list();
    for (i, word) in words.iter().enumerate() {
        assert_eq!(word.get("number").number(), i as u64 + 1);
        word_shape(word, level);
    }
    for expectation in document.get("expectations").list() {
        assert_eq!(expectation.keys(), EXPECTATION);
        let word = expectation.get("word").number() as usize;
        assert!((1..=words.len()).contains(&word));
        let met = *expectation.get("met") == Value::Bool(true);
        match expectation.get("difference") {
            Value::Null => assert!(met),
            found => {
                let keys = found.keys();
                assert!(!met && (keys == BYTES_DIFFER || keys == ANSWERS_DIFFER));
            }
        }
    }
    counts(document);
}

/// The numbers of a word are those that it decodes to.
fn word_shape(word: &Value, level: u64) {
    assert_eq!(word.keys(), WORD);
    let bits = u32::from_str_radix(word.get("word").text(), 16).expect("a word is hexadecimal");
    match (word.get("numbers"), decode_fields(bits, level)) {
        (Value::Null, Err(_)) => assert!(matches!(word.get("answer").number(), 2 | 3)),
        (numbers, Ok(fields)) => {
            assert_eq!(numbers.keys(), NUMBERS);
            let expected: [u8; 11] = fields.into();
            let found = NUMBERS.map(|name| numbers.get(name).number());
            assert_eq!(found, expected.map(u64::from));
            assert!(!word.get("meaning").text().is_empty());
        }
        (numbers, Err(_)) => panic!("{numbers:?} of a word that does not decode"),
    }
    let answer = word.get("answer").number();
    for carried in ["address", "element"] {
        assert_eq!(answer == 7, *word.get(carried) != Value::Null);
    }
    assert!(answer == 0 || word.get("changed").list().is_empty());
}

fn counts(document: &Value) {
    let summary = |name| document.get("summary").get(name).number() as usize;
    let words = document.get("words").list();
    let done = words.iter().filter(|word| word.get("answer").number() == 0);
    let failures = words
        .iter()
        .filter(|word| *word.get("failure") != Value::Null);
    assert_eq!(summary("words"), words.len());
    assert_eq!(summary("done"), done.count());
    assert_eq!(summary("refused"), words.len() - summary("done"));
    assert_eq!(summary("not_allowed"), failures.count());
    let expectations = document.get("expectations").list();
    let unmet = expectations
        .iter()
        .filter(|one| *one.get("met") == Value::Bool(false));
    assert_eq!(summary("expectations"), expectations.len());
    assert_eq!(summary("not_met"), unmet.count());
    let failed = summary("not_allowed") + summary("not_met") > 0;
    assert_eq!(*document.get("summary").get("failed"), Value::Bool(failed));
}

#[test]
fn every_script_gives_a_document_of_the_documented_shape() {
    for name in SCRIPTS {
        let script = format!("{}/tests/scripts/{name}.txt", env!("CARGO_MANIFEST_DIR"));
        let output = runner(&["--json", &script]).output().expect("it starts");
        assert_eq!(output.status.code(), Some(0));
        assert!(output.stderr.is_empty());
        let document = document(output.stdout);
        assert_eq!(document.get("script").text(), script);
    }
    let output = runner(&["--json"]).output().expect("it starts");
    let document = document(output.stdout);
    assert_eq!(document.get("script").text(), "built-in example");
    let vectors = document.get("end").get("vectors").list();
    let last = vectors.last().expect("registers changed");
    assert_eq!(last.get("number").number(), 7);
    assert_eq!(last.get("bytes").text(), "14141414242424243434343444444444");
}

#[test]
fn the_stack_check_is_in_the_document() {
    for (line, on) in [
        ("", true),
        ("stack-check on", true),
        ("stack-check off", false),
    ] {
        let script = format!("vector-bytes 16\n{line}\nword 00000000\n");
        let output = piped(&["-", "--json"], script.as_bytes());
        let document = document(output.stdout);
        let found = document.get("settings").get("stack_check");
        assert_eq!(*found, Value::Bool(on));
    }
}

#[test]
fn the_largest_vector_length_is_in_the_document() {
    for (line, bytes) in [
        ("", 16),
        ("largest-vector-bytes 16", 16),
        ("largest-vector-bytes 128", 128),
    ] {
        let script = format!("{line}\nvector-bytes 16\nword 00000000\n");
        let output = piped(&["-", "--json"], script.as_bytes());
        let document = document(output.stdout);
        let found = document.get("settings").get("largest_vector_bytes");
        assert_eq!(found.number(), bytes);
    }
}

#[test]
fn what_differs_is_in_the_document() {
    let script = "vector-bytes 16\nmemory 00010203\nword 00000000\nexpect answer 7 1F\n\
                  expect answer 3\nexpect memory 1 01FF03\nword C0000010\n";
    let output = piped(&["-", "--json", "--strict"], script.as_bytes());
    assert_eq!(output.status.code(), Some(3));
    let document = document(output.stdout);
    let expectations = document.get("expectations").list();
    let differing = |i: usize| expectations[i].get("difference");
    let answer = r#"{"expected": 7, "expected_address": "000000000000001F", "expected_element": null,
                     "found": 3, "found_address": null, "found_element": null}"#;
    assert_eq!(Ok(differing(0).clone()), parse(answer));
    assert_eq!(*differing(1), Value::Null);
    let bytes = r#"{"first_byte": 1, "bytes": 1, "expected": "01FF03", "found": "010203"}"#;
    assert_eq!(Ok(differing(2).clone()), parse(bytes));
    let failure = document.get("words").list()[1].get("failure").text();
    assert!(failure.starts_with("word 2, C0000010, is refused"));
}

/// Of a row of 4-byte elements, number 2 ends beyond memory; what is expected is told as far as the script tells it.
#[test]
fn the_element_that_is_outside_is_in_the_document() {
    let script = "vector-bytes 16\nmemory 00010203 04050607 0809\npredicate 0 1111\n\
                  word E09F0000\nexpect answer 7 A 3\nexpect answer 7 B\nexpect answer 3\n\
                  expect answer 7 A 2\n";
    let document = document(piped(&["-", "--json"], script.as_bytes()).stdout);
    let word = &document.get("words").list()[0];
    let carried = (word.get("address").text(), word.get("element").number());
    assert_eq!(carried, ("000000000000000A", 2));
    let text = "address 000000000000000A of element 2 is not in memory";
    assert_eq!(word.get("answer_text").text(), text);
    let expectations = document.get("expectations").list().iter();
    let differences = expectations.map(|one| one.get("difference").clone());
    let found = r#""found": 7, "found_address": "000000000000000A", "found_element": 2}"#;
    let expected = [
        r#"{"expected": 7, "expected_address": "000000000000000A", "expected_element": 3, "#,
        r#"{"expected": 7, "expected_address": "000000000000000B", "expected_element": null, "#,
        r#"{"expected": 3, "expected_address": null, "expected_element": null, "#,
    ];
    let expected = expected.map(|expected| parse(&format!("{expected}{found}")));
    let expected = expected.into_iter().chain([Ok(Value::Null)]);
    assert!(differences.map(Ok).eq(expected));
}

/// A folder for one test, empty.
fn folder(name: &str) -> PathBuf {
    let folder = Path::new(env!("CARGO_TARGET_TMPDIR")).join(name);
    let _ = fs::remove_dir_all(&folder);
    fs::create_dir_all(&folder).expect("the folder can be made");
    folder
}

/// What the changes of all words make of first contents, each of which finds what it says was there.
fn replayed(document: &Value, place: &str, mut bytes: Vec<u8>) -> Vec<u8> {
    let settings = document.get("settings");
    let vector_bytes = settings.get("vector_bytes").number();
    let start = settings.get("memory_address").address();
    let words = document.get("words").list().iter();
    let changes = words.flat_map(|word| word.get("changed").list());
    for change in changes.filter(|change| change.get("place").text() == place) {
        let at = match place {
            "memory" => change.get("address").address() - start,
            _ => change.get("number").number() * vector_bytes + change.get("byte").number(),
        };
        let (before, after) = (change.get("before").bytes(), change.get("after").bytes());
        let spot = &mut bytes[at as usize..][..before.len()];
        assert_eq!(spot, before);
        assert!(before
            .iter()
            .zip(&after)
            .all(|(before, after)| before != after));
        spot.copy_from_slice(&after);
    }
    bytes
}

/// A word of each kind, on vectors of 32 bytes: the changes in the document are all that there were.
#[test]
fn the_changes_lead_from_the_first_contents_to_the_last() {
    let folder = folder("replayed");
    let noise = |seed: usize, length: usize| -> Vec<u8> {
        (0..length)
            .map(|i| ((i + seed) * 167 % 251) as u8)
            .collect()
    };
    let (array, memory) = (noise(1, 1024), noise(5, 100));
    fs::write(folder.join("array"), &array).expect("the file can be written");
    fs::write(folder.join("memory"), &memory).expect("the file can be written");
    let script = "vector-bytes 32\nmemory-address 1000\narray-file array\nmemory-file memory\n\
                  predicate 3 5A3C965A\nregister 1 1021\nregister 12 7\nregister 8 5\n\
                  word C0800CA9 C0C203BF C0062CE8 C0060A6A E0BF0C21 C0820D25 E05F0C29\n\
                  register 1 1041\nword E0FF0C21 E0BF0C21\n";
    fs::write(folder.join("k.txt"), script).expect("the file can be written");
    let line = "--json k.txt --array-out array-out --memory-out memory-out";
    let mut command = runner(&line.split(' ').collect::<Vec<_>>());
    let output = command.current_dir(&folder).output().expect("it starts");
    assert_eq!(output.status.code(), Some(0));
    let document = document(output.stdout);
    let summary = document.get("summary");
    assert_eq!(
        (summary.get("words").number(), summary.get("done").number()),
        (9, 9)
    );
    let kinds = document.get("words").list().iter();
    let kinds: BTreeSet<u64> = kinds
        .map(|word| word.get("numbers").get("kind").number())
        .collect();
    assert_eq!(kinds, (1..=7).collect());
    let read = |name| fs::read(folder.join(name)).expect("the file is there");
    assert_eq!(replayed(&document, "array", array), read("array-out"));
    assert_eq!(replayed(&document, "memory", memory), read("memory-out"));
    let vectors = replayed(&document, "vector", vec![0; 32 * 32]);
    for vector in document.get("end").get("vectors").list() {
        let start = vector.get("number").number() as usize * 32;
        assert_eq!(vectors[start..start + 32], vector.get("bytes").bytes());
    }
}

#[test]
#[cfg(unix)]
fn names_of_scripts_are_escaped() {
    let folder = folder("names");
    let name = "a \"b\\\n\u{1b}[1m\u{e9}.txt";
    fs::write(folder.join(name), "vector-bytes 16\nword 00000000\n").expect("it can be written");
    let mut command = runner(&["--json", name]);
    let output = command.current_dir(&folder).output().expect("it starts");
    assert!(!output.stdout.contains(&0x1B));
    assert_eq!(document(output.stdout).get("script").text(), name);
}

/// Each name in a document stands in its description.
#[test]
fn the_document_is_described() {
    let path = concat!(env!("CARGO_MANIFEST_DIR"), "/../../docs/RUNNER.md");
    let text = fs::read_to_string(path).expect("the description is there");
    let names = [TOP.as_slice(), &SETTINGS, &WORD, &NUMBERS, &EXPECTATION];
    let more: [&[&str]; 4] = [
        &BYTES_DIFFER,
        &ANSWERS_DIFFER,
        &SUMMARY,
        &["vectors", "memory"],
    ];
    for name in names.into_iter().chain(more).flatten() {
        assert!(text.contains(&format!("`{name}`")), "{name}");
    }
}
