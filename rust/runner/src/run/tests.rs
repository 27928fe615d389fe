//! Words that run in one call come to what they come to one by one: what is printed, what is counted, and every byte.

use super::*;
use crate::report::Brief;
use crate::script::parse;
use std::path::Path;

/// Prints as the brief report does, but has every word run by itself.
struct OneByOne<'a>(Brief<'a, &'a mut Vec<u8>>);

impl Observer for OneByOne<'_> {
    fn shows_words(&self) -> bool {
        true
    }

    fn start(&mut self, machine: &Machine) -> io::Result<()> {
        self.0.start(machine)
    }

    fn word(&mut self, executed: &Executed, machine: &Machine) -> io::Result<()> {
        self.0.word(executed, machine)
    }

    fn not_allowed(&mut self, failure: &NotAllowed) -> io::Result<()> {
        self.0.not_allowed(failure)
    }

    fn expectation(&mut self, checked: &Checked) -> io::Result<()> {
        self.0.expectation(checked)
    }

    fn end(&mut self, tally: &Tally, machine: &Machine) -> io::Result<()> {
        self.0.end(tally, machine)
    }
}

/// Runs a script both ways, strict or not, and gives back what the last line says of the strict run.
#[track_caller]
fn both_ways(text: &str) -> String {
    let script = parse(text, Path::new("")).expect("a good script");
    let mut summary = String::new();
    for strict in [false, true] {
        let [mut together, mut apart] = [(); 2].map(|()| Vec::new());
        let (out, name) = (&mut together, "k.txt");
        let brief = run(&mut Brief { out, name }, &script, strict).expect("a vector takes all");
        let out = &mut apart;
        let mut one_by_one = OneByOne(Brief { out, name });
        let full = run(&mut one_by_one, &script, strict).expect("a vector takes all");
        let [together, apart] = [together, apart].map(String::from_utf8);
        assert_eq!(together, apart);
        assert_eq!(brief.1.first_failure, full.1.first_failure);
        assert!(brief.0.state == full.0.state && brief.0.memory == full.0.memory);
        summary = full.1.summary();
        assert_eq!(brief.1.summary(), summary);
    }
    summary
}

/// Moves vector register 0 to row 0 of the byte tile; stores that at address 0; moves it back and zeroes it.
const MOVE: &str = "C0000000";
const STORE: &str = "E03F0000";
const BACK: &str = "C0020201";
/// Stores it outside memory, by register 1; on the stack, which is no multiple of 16; and is no instruction.
const OUTSIDE: &str = "E03F0020";
const STACK: &str = "E03F03E0";
const NONE: &str = "00000000";

/// Settings and contents for these words, with more lines after the vector length.
fn head(more: &str) -> String {
    let sixteen = "101112131415161718191A1B1C1D1E1F";
    format!(
        "vector-bytes 16\n{more}\nmemory {sixteen}\nvector 0 {sixteen}\npredicate 0 FFFF\n\
         register 1 8\nregister 31 8\n"
    )
}

#[test]
fn refused_words_are_told_wherever_they_stand() {
    for (words, summary) in [
        (&[MOVE][..], "1 word, 1 done, 0 refused"),
        (&[NONE], "1 word, 0 done, 1 refused (1 not allowed)"),
        (&[MOVE, STORE, BACK], "3 words, 3 done, 0 refused"),
        (
            &[NONE, MOVE, STORE],
            "3 words, 2 done, 1 refused (1 not allowed)",
        ),
        (
            &[MOVE, STORE, OUTSIDE],
            "3 words, 2 done, 1 refused (1 not allowed)",
        ),
        (
            &[MOVE, STACK, BACK],
            "3 words, 2 done, 1 refused (1 not allowed)",
        ),
        (
            &[MOVE, NONE, STACK, OUTSIDE, STORE, BACK],
            "6 words, 3 done, 3 refused (3 not allowed)",
        ),
        (
            &[OUTSIDE, NONE, MOVE, NONE, BACK, STACK, STACK],
            "7 words, 2 done, 5 refused (5 not allowed)",
        ),
        (
            &[NONE, STACK, OUTSIDE, NONE],
            "4 words, 0 done, 4 refused (4 not allowed)",
        ),
    ] {
        let on_one_line = format!("{}word {}\n", head(""), words.join(" "));
        assert_eq!(both_ways(&on_one_line), summary);
        let on_lines = format!("{}word {}\n", head(""), words.join("\nword "));
        assert_eq!(both_ways(&on_lines), summary);
        let in_long_buffers = format!(
            "{}word {}\n",
            head("largest-vector-bytes 64"),
            words.join(" ")
        );
        assert_eq!(both_ways(&in_long_buffers), summary);
    }
}

/// What stands between words ends a call; the answer that is expected is that of the last word before.
#[test]
fn contents_and_expectations_stand_between_words() {
    let lines = [
        &format!("word {MOVE} {NONE}"),
        "expect answer 3",
        "expect answer 0",
        &format!("word {NONE} {STORE}"),
        "expect answer 0",
        "expect answer 3",
        "vector 0 202122232425262728292A2B2C2D2E2F",
        &format!("word {MOVE}"),
        &format!("word {OUTSIDE}"),
        "expect answer 7 10 8",
        "expect array 0 202122232425262728292A2B2C2D2E2F",
        "expect memory 0 202122232425262728292A2B2C2D2E2F",
        "register 31 0",
        &format!("word {STACK} {STACK}"),
        "expect memory 0 202122232425262728292A2B2C2D2E2F",
    ];
    let summary = both_ways(&format!("{}{}\n", head(""), lines.join("\n")));
    let expected = "8 words, 5 done, 3 refused (1 not allowed); 8 expectations, 5 met, 3 not met";
    assert_eq!(summary, expected);
}

/// Memory that ends too high is refused without words too, so that no answer may be waited for to end the run.
#[test]
fn settings_may_refuse_every_word() {
    for (setting, answer) in [
        ("streaming off", 4),
        ("array off", 5),
        ("level 0", 3),
        ("memory-address FFFFFFFFFFFFFFF1", 2),
    ] {
        let words = [MOVE, STORE, BACK].join(" ");
        let script = format!("{}word {words}\nexpect answer {answer}\n", head(setting));
        let summary = both_ways(&script);
        let counts = "3 words, 0 done, 3 refused (2 not allowed); 1 expectation, 1 met, 0 not met";
        assert_eq!(summary, counts);
    }
}

/// Numbers that look like chance, the same ones every time.
struct Random(u64);

impl Random {
    fn below(&mut self, limit: usize) -> usize {
        self.0 ^= self.0 << 13;
        self.0 ^= self.0 >> 7;
        self.0 ^= self.0 << 17;
        (self.0 >> 20) as usize % limit
    }

    fn line(&mut self) -> String {
        let words = [MOVE, MOVE, STORE, BACK, OUTSIDE, STACK, NONE, "C0060800"];
        match self.below(12) {
            0 => format!("register 12 {:X}", self.below(20)),
            1 => format!("register 1 {:X}", self.below(3) * 4),
            2 => format!("expect answer {}", [0, 3, 6, 7][self.below(4)]),
            3 => format!("vector 0 {}", format!("{:02X}", self.below(256)).repeat(16)),
            4 => format!("expect vector 1 {}", "00".repeat(16)),
            _ => {
                let count = 1 + self.below(6);
                let words: Vec<&str> = (0..count).map(|_| words[self.below(8)]).collect();
                format!("word {}", words.join(" "))
            }
        }
    }
}

#[test]
fn scripts_by_chance_come_to_the_same_both_ways() {
    let mut random = Random(0x1234_5678_9ABC_DEF1);
    for number in 0..300 {
        let largest = ["", "largest-vector-bytes 32"][number % 2];
        let mut lines = vec![format!("{}word {MOVE}", head(largest))];
        lines.extend((0..random.below(40)).map(|_| random.line()));
        both_ways(&(lines.join("\n") + "\n"));
    }
}

#[test]
fn many_words_come_to_the_same_both_ways() {
    let mut random = Random(77);
    for spoilt in [1, 2, 50, 70_000] {
        let word = |_| match random.below(spoilt) {
            0 => [NONE, OUTSIDE, STACK][random.below(3)],
            _ => [MOVE, STORE, BACK][random.below(3)],
        };
        let words: Vec<&str> = (0..70_000).map(word).collect();
        let summary = both_ways(&format!("{}word {}\n", head(""), words.join(" ")));
        assert!(summary.starts_with("70000 words, "), "{summary}");
    }
}
