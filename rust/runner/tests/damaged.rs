//! Damaged scripts and damaged files that scripts name, thousands of them if asked: each is refused with a
//! message that names the file and the line, and nothing is run; or it is still valid and runs.
//! DAMAGED_FILES says how many, DAMAGED_SEED where the random numbers start.

mod common;
#[path = "damaged/damage.rs"]
mod damage;
#[path = "json/parser.rs"]
#[allow(dead_code)] // Only whether a document parses is asked here.
mod parser;
#[path = "damaged/verdict.rs"]
mod verdict;

use common::runner;
use damage::{damaged, Random, BINARY_KINDS, KINDS};
use std::collections::BTreeMap;
use std::fs;
use std::path::{Path, PathBuf};
use std::time::Instant;
use verdict::{judge, Verdict};

const SCRIPTS: [&str; 21] = [
    include_str!("../example.txt"),
    include_str!("scripts/access.txt"),
    include_str!("scripts/array.txt"),
    include_str!("scripts/fault.txt"),
    include_str!("scripts/fetch.txt"),
    include_str!("scripts/large.txt"),
    include_str!("scripts/long.txt"),
    include_str!("scripts/refused.txt"),
    include_str!("scripts/store.txt"),
    include_str!("scripts/top.txt"),
    include_str!("../../../examples/scripts/load.txt"),
    include_str!("../../../examples/scripts/long-buffers.txt"),
    include_str!("../../../examples/scripts/move-and-zero-from-array.txt"),
    include_str!("../../../examples/scripts/move-and-zero-from-tile.txt"),
    include_str!("../../../examples/scripts/move-from-array.txt"),
    include_str!("../../../examples/scripts/move-from-tile.txt"),
    include_str!("../../../examples/scripts/move-to-tile.txt"),
    include_str!("../../../examples/scripts/stack-check.txt"),
    include_str!("../../../examples/scripts/store.txt"),
    include_str!("../../../examples/scripts/transpose.txt"),
    WITH_FILES,
];

/// A script whose words, memory and array are files.
const WITH_FILES: &str = "\
vector-bytes 16
memory-file memory.bin
array-file array.bin
predicate 0  FFFF
register 1  10
words-file words.bin
expect answer 0
expect memory 10  00112233 44556677 8899AABB CCDDEEFF
expect tile 1:0 horizontal 3  00112233 44556677 8899AABB CCDDEEFF
words-file words.bin
word E03F0023
expect answer 0
";

/// The files that it names: the words store row 3 of the tile of 1-byte elements and load it again.
fn files() -> [(&'static str, Vec<u8>); 3] {
    let row: Vec<u8> = (0..16).map(|byte| byte * 0x11).collect();
    let mut array = vec![0; 256];
    array[48..64].copy_from_slice(&row);
    let words = [0xE03F0023_u32, 0xE01F0023].map(u32::to_le_bytes).concat();
    let memory = vec![0xEE; 40];
    [
        ("words.bin", words),
        ("memory.bin", memory),
        ("array.bin", array),
    ]
}

fn number(variable: &str, default: u64) -> u64 {
    match std::env::var(variable) {
        Ok(text) => text
            .parse()
            .unwrap_or_else(|_| panic!("{variable} is no number: {text}")),
        Err(_) => default,
    }
}

#[derive(Default)]
struct Tally {
    refused: u64,
    still_valid: u64,
    /// Among those still valid, how many do not do what they expect.
    failed: u64,
    kinds: BTreeMap<&'static str, u64>,
}

#[test]
fn damaged_files_are_refused_with_file_and_line() {
    let (files, seed) = (number("DAMAGED_FILES", 300), number("DAMAGED_SEED", 1));
    println!("DAMAGED_FILES={files} DAMAGED_SEED={seed}");
    let start = Instant::now();
    let mut random = Random(seed);
    let mut tally = Tally::default();
    let folder = Folder::new("damaged");
    while tally.refused < files {
        // Random damage often enough leaves a valid script, but not nearly always.
        let drawn = tally.refused + tally.still_valid;
        assert!(
            drawn < 20 * files + 100,
            "too much damage leaves scripts valid"
        );
        tally.draw(&folder, &mut random);
    }
    let Tally {
        refused,
        still_valid,
        failed,
        kinds,
    } = tally;
    println!(
        "{refused} refused, {still_valid} still valid and run, {failed} of them not as expected, {:?}",
        start.elapsed()
    );
    println!("refused by kind of damage: {kinds:?}");
}

impl Tally {
    /// Damages a script, or one of the files of the script that has some, and runs it.
    fn draw(&mut self, folder: &Folder, random: &mut Random) {
        let damages_a_file = random.below(4) == 0;
        let (kind, script) = if damages_a_file {
            (folder.damage_a_file(random), WITH_FILES.as_bytes().to_vec())
        } else {
            let script = SCRIPTS[random.below(SCRIPTS.len())];
            let kind = KINDS[random.below(KINDS.len())];
            (kind.0, damaged(script.as_bytes(), kind, random))
        };
        let verdict = folder.run(&script, FORMS[random.below(FORMS.len())]);
        if damages_a_file {
            folder.restore();
        }
        match verdict {
            Ok(Verdict::Refused) => {
                self.refused += 1;
                *self.kinds.entry(kind).or_default() += 1;
            }
            Ok(Verdict::Ran) => self.still_valid += 1,
            Ok(Verdict::Failed) => {
                self.still_valid += 1;
                self.failed += 1;
            }
            Err(fault) => {
                let file = String::from_utf8_lossy(&script);
                let drawn = self.refused + self.still_valid;
                panic!("{kind} in file {drawn}: {fault}\n{file}")
            }
        }
    }
}

/// Every script is right before it is damaged.
#[test]
fn undamaged_files_run() {
    let folder = Folder::new("undamaged");
    for script in SCRIPTS {
        for form in FORMS {
            assert_eq!(folder.run(script.as_bytes(), form), Ok(Verdict::Ran));
        }
    }
}

/// In which forms a run may be printed.
const FORMS: [&str; 3] = ["--all", "--quiet", "--json"];

/// The folder of a test, with the files that a script names.
struct Folder(PathBuf);

impl Folder {
    fn new(name: &str) -> Folder {
        let folder = Folder(Path::new(env!("CARGO_TARGET_TMPDIR")).join(name));
        let _ = fs::remove_dir_all(&folder.0);
        fs::create_dir_all(&folder.0).expect("the folder can be made");
        folder.restore();
        folder
    }

    /// Puts every file in its place.
    fn restore(&self) {
        for (name, bytes) in files() {
            let _ = fs::remove_dir(self.0.join(name));
            fs::write(self.0.join(name), bytes).expect("the file can be written");
        }
    }

    /// Damages one of the files, and tells how.
    fn damage_a_file(&self, random: &mut Random) -> &'static str {
        let (name, bytes) = &files()[random.below(3)];
        let path = self.0.join(name);
        let choice = random.below(BINARY_KINDS.len() + 2);
        match BINARY_KINDS.get(choice) {
            Some(&kind) => {
                fs::write(path, damaged(bytes, kind, random)).expect("the file can be written");
                kind.0
            }
            None => {
                fs::remove_file(&path).expect("the file is there");
                if choice == BINARY_KINDS.len() {
                    return "binary file lost";
                }
                fs::create_dir(path).expect("the folder can be made");
                "folder for a binary file"
            }
        }
    }

    fn run(&self, script: &[u8], form: &str) -> Result<Verdict, String> {
        let name = format!("{}/script.txt", self.0.display());
        fs::write(&name, script).expect("the file can be written");
        let output = runner(&[&name, form]).output().expect("the program starts");
        let verdict = judge(&output, &name, script.is_empty())?;
        if form == "--json" && verdict != Verdict::Refused {
            let text = String::from_utf8_lossy(&output.stdout);
            parser::parse(&text)?;
        }
        Ok(verdict)
    }
}
