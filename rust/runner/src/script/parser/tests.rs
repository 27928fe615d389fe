//! Each fault of a script has its message and its line; what is right is taken in.

use super::*;
use crate::script::Answer;
use sme_move::Refusal;

fn parse(text: &str) -> Result<Script, Fault> {
    super::parse(text, Path::new(""))
}

/// The message about a script, where B stands for the lines that make vectors of 16 bytes.
fn fault(text: &str) -> String {
    let text = text.replace("B;", "vector-bytes 16;").replace(';', "\n");
    match parse(&text) {
        Ok(_) => "no fault".to_string(),
        Err(fault) => fault.in_file("k"),
    }
}

#[track_caller]
fn faults(cases: &[(&str, &str)]) {
    for (text, message) in cases {
        let found = fault(text);
        assert!(found.starts_with(message), "{text}\n{found}\n{message}");
    }
}

#[test]
fn settings_are_checked() {
    faults(&[
        (
            "vector-bytes 48",
            "k:1: '48' is no vector length: 16, 32, 64",
        ),
        ("vector-bytes 016", "k:1: '016' is no vector length"),
        ("vector-bytes", "k:1: 'vector-bytes' takes one value, not 0"),
        (
            "vector-bytes 16 32",
            "k:1: 'vector-bytes' takes one value, not 2",
        ),
        ("B;;vector-bytes 16", "k:3: 'vector-bytes' is stated twice"),
        ("B;level 4", "k:2: '4' is no level: 0, 1, 2 or 3"),
        (
            "B;level 99999999999999999999",
            "k:2: '99999999999999999999' is no level",
        ),
        (
            "B;streaming yes",
            "k:2: 'streaming' is on or off, not 'yes'",
        ),
        (
            "B;array on;array off",
            "k:3: 'array on or off' is stated twice",
        ),
        (
            "B;stack-check 1",
            "k:2: 'stack-check' is on or off, not '1'",
        ),
        (
            "B;stack-check on off",
            "k:2: 'stack-check' takes one value, not 2",
        ),
        (
            "B;stack-check on;stack-check on",
            "k:3: 'stack-check' is stated twice",
        ),
        (
            "memory-address 0x10",
            "k:1: '0x10' has 'x' in it, which is no hexadecimal",
        ),
        (
            "memory-address 00000000000000000",
            "k:1: '00000000000000000' has 17",
        ),
    ]);
}

/// The line that is told is the later of the two that do not go together.
#[test]
fn the_largest_vector_length_is_checked() {
    faults(&[
        (
            "B;largest-vector-bytes 48",
            "k:2: '48' is no vector length: 16, 32, 64",
        ),
        ("B;largest-vector-bytes 0", "k:2: '0' is no vector length"),
        (
            "B;largest-vector-bytes",
            "k:2: 'largest-vector-bytes' takes one value, not 0",
        ),
        (
            "B;largest-vector-bytes 16;;largest-vector-bytes 16",
            "k:4: 'largest-vector-bytes' is stated twice",
        ),
        (
            "vector-bytes 32;level 3;largest-vector-bytes 16",
            "k:3: 'largest-vector-bytes' is 16, below the vector length of 32 bytes",
        ),
        (
            "largest-vector-bytes 128;level 3;vector-bytes 256",
            "k:3: 'largest-vector-bytes' is 128, below the vector length of 256 bytes",
        ),
    ]);
}

#[test]
fn settings_come_first() {
    faults(&[
        (
            "B;register 1 2;level 3",
            "k:3: 'level' is a setting, and settings come before",
        ),
        ("B;word C0000000;array off", "k:3: 'array' is a setting"),
        (
            "B;memory 00;stack-check off",
            "k:3: 'stack-check' is a setting",
        ),
        (
            "B;word C0000000;stack-check off",
            "k:3: 'stack-check' is a setting",
        ),
        (
            "B;predicate 0 FFFF;largest-vector-bytes 32",
            "k:3: 'largest-vector-bytes' is a setting",
        ),
        ("level 3;register 1 2", "k:2: 'vector-bytes' is missing"),
        (
            "largest-vector-bytes 64;register 1 2",
            "k:2: 'vector-bytes' is missing",
        ),
        ("# nothing;", "k:1: 'vector-bytes' is missing"),
        ("", "k:1: 'vector-bytes' is missing"),
    ]);
}

#[test]
fn registers_are_checked() {
    faults(&[
        (
            "B;register 32 0",
            "k:2: '32' is no number of a register: 0 to 31",
        ),
        ("B;register 1", "k:2: 'register' takes a number and a value"),
        (
            "B;register 1 2 3",
            "k:2: 'register' takes a number and a value",
        ),
        (
            "B;register 1 12345678123456789",
            "k:2: '12345678123456789' has 17",
        ),
        (
            "B;vector",
            "k:2: a vector register takes its number and 16 bytes",
        ),
        (
            "B;vector 32 00",
            "k:2: '32' is no number of a vector register: 0 to 31",
        ),
        (
            "B;vector 3 0011",
            "k:2: a vector register has exactly 16 bytes here, not 2",
        ),
        ("B;vector 3 001", "k:2: '001' has 3 digits; a byte has two"),
        ("B;vector 3 0G", "k:2: '0G' has 'G' in it"),
    ]);
}

#[test]
fn predicates_and_vectors_of_the_array_are_checked() {
    faults(&[
        (
            "B;predicate 16 0000",
            "k:2: '16' is no number of a predicate: 0 to 15",
        ),
        (
            "B;predicate 0 FF",
            "k:2: a predicate has exactly 2 bytes here, not 1",
        ),
        (
            "B;array 16 00",
            "k:2: '16' is no number of a vector of the array: 0 to 15",
        ),
        (
            "B;array 1 00",
            "k:2: a vector of the array has exactly 16 bytes here",
        ),
    ]);
}

#[test]
fn memory_is_checked() {
    faults(&[
        ("B;memory", "k:2: 'memory' takes one or more bytes"),
        ("B;memory 0", "k:2: '0' has 1 digits"),
        (
            "B;word C0000000;memory 00",
            "k:3: 'memory' comes before the first word",
        ),
    ]);
}

#[test]
fn words_are_checked() {
    faults(&[
        ("B;word", "k:2: 'word' takes one or more words"),
        (
            "B;word C08000",
            "k:2: a word has exactly eight hexadecimal digits; 'C08000' has 6",
        ),
        (
            "B;word C0000000 C08000000",
            "k:2: a word has exactly eight hexadecimal digits; 'C0800",
        ),
        (
            "B;word C000000O",
            "k:2: a word has exactly eight hexadecimal digits; 'C000000O' has 'O'",
        ),
        (
            "B;register 1 2;;",
            "k:3: the script ends without a word to execute",
        ),
    ]);
}

#[test]
fn expectations_come_after_words() {
    faults(&[
        (
            "B;word 00000000;expect",
            "k:3: 'expect' is followed by answer, memory",
        ),
        (
            "B;word 00000000;expect predicate 0 0000",
            "k:3: 'expect' is followed by answer, memory, vector, array or tile, not 'predicate'",
        ),
        (
            "B;expect vector 0 00000000000000000000000000000000",
            "k:2: 'expect' comes after a word",
        ),
        ("expect answer 0", "k:1: 'vector-bytes' is missing"),
    ]);
}

/// What is wrong with expectations after a word and four bytes of memory.
#[track_caller]
fn expectations(cases: &[(&str, &str)]) {
    for (values, message) in cases {
        let start = "B;memory-address 100;memory 00010203;word 00000000";
        let found = fault(&format!("{start};expect {values}"));
        let expected = match *message {
            "" => "no fault".to_string(),
            message => format!("k:5: {message}"),
        };
        assert!(found.starts_with(&expected), "{values}\n{found}");
    }
}

#[test]
fn expected_answers_are_checked() {
    expectations(&[
        (
            "answer",
            "'expect answer' takes a number, and with 7 also an address, and after it the number of an element",
        ),
        ("answer 7 10 2 3", "'expect answer' takes a number, and with"),
        ("answer 1", "'1' is no answer that a word of a script gets"),
        ("answer 8", "'8' is no answer"),
        ("answer 9", "'9' is no answer"),
        ("answer 07", "'07' is no answer"),
        (
            "answer 6 10",
            "only answer 7 has an address and an element, and 6 neither",
        ),
        ("answer 0 10 2", "only answer 7 has an address and an"),
        ("answer 7 1G", "'1G' has 'G' in it"),
        ("answer 7 1G 2", "'1G' has 'G' in it"),
        (
            "answer 7 10 256",
            "'256' is no number of a slice's element: 0 to 255, in decimal",
        ),
        ("answer 7 10 F", "'F' is no number of a slice's element"),
        ("answer 7 10 03", "'03' is no number of a slice's element"),
        ("answer 7 10 -1", "'-1' is no number of a slice's element"),
        ("answer 0", ""),
        ("answer 2", ""),
        ("answer 6", ""),
        ("answer 7", ""),
        ("answer 7 10", ""),
        ("answer 7 10 255", ""),
    ]);
}

#[test]
fn expected_vectors_are_checked() {
    expectations(&[
        ("vector", "a vector register takes its number and 16 bytes"),
        (
            "vector 32",
            "'32' is no number of a vector register: 0 to 31",
        ),
        (
            "vector 0 00",
            "a vector register has exactly 16 bytes here, not 1",
        ),
        (
            "array 16 00",
            "'16' is no number of a vector of the array: 0 to 15",
        ),
        ("array 1 0", "'0' has 1 digits"),
    ]);
}

#[test]
fn expected_slices_are_checked() {
    expectations(&[
        (
            "tile 4:1 horizontal",
            "'expect tile' takes a tile such as 4:1",
        ),
        (
            "tile 3:1 vertical 0 00",
            "'3:1' is no tile: element bytes 1",
        ),
        ("tile 4:4 vertical 0 00", "'4:4' is no tile"),
        ("tile 4 vertical 0 00", "'4' is no tile"),
        (
            "tile 4:1 row 0 00",
            "a slice is horizontal or vertical, not 'row'",
        ),
        (
            "tile 4:1 vertical 4 00",
            "'4' is no number of a slice: 0 to 3",
        ),
        (
            "tile 4:1 vertical 3 00",
            "a slice has exactly 16 bytes here, not 1",
        ),
        ("tile 16:15 vertical 0 00112233445566778899AABBCCDDEEFF", ""),
    ]);
}

#[test]
fn expected_memory_is_in_memory() {
    expectations(&[
        ("memory", "'expect memory' takes an address and one or more"),
        (
            "memory 100",
            "'expect memory' takes one or more bytes after",
        ),
        ("memory 100 0", "'0' has 1 digits"),
        (
            "memory FF 00",
            "memory does not have 1 byte from 00000000000000FF on: it has 4 bytes from \
             0000000000000100 on",
        ),
        (
            "memory 104 00",
            "memory does not have 1 byte from 0000000000000104",
        ),
        (
            "memory 103 0000",
            "memory does not have 2 bytes from 0000000000000103",
        ),
        (
            "memory FFFFFFFFFFFFFFFF 0000",
            "memory does not have 2 bytes from FF",
        ),
        ("memory 100 00010203", ""),
        ("memory 103 FF", ""),
    ]);
}

/// An expectation of an answer is about the word before, also where other lines stand between.
#[test]
fn a_word_knows_whether_its_answer_is_expected() {
    let text = "vector-bytes 16\nword 00000000 00000001\nregister 1 1\nexpect answer 3\n\
                word 00000002\nexpect vector 0 00000000000000000000000000000000\n\
                word 00000003\nexpect answer 7 1f\n";
    let script = parse(text).expect("a good script");
    let words = script.steps.iter().filter_map(|step| match step.action {
        Action::Word(word) => Some((word.word, word.answer_expected)),
        _ => None,
    });
    let expected = [(0, false), (1, true), (2, false), (3, true)];
    assert_eq!(words.collect::<Vec<_>>(), expected);
    let last = script.steps.last().map(|step| &step.action);
    let address = Some(0x1F);
    let answer = Expectation::Answer(Answer::OutsideMemory { address });
    assert_eq!(last, Some(&Action::Expect(answer)));
}

/// What is not told of answer 7 may be anything; other answers are no answer 7.
#[test]
fn as_much_of_answer_7_is_expected_as_is_told() {
    let outside = |address, element| Err(Refusal::OutsideMemory { address, element });
    for (values, is) in [
        ("7", [true, true, true, false]),
        ("7 1f", [true, true, false, false]),
        ("7 1f 3", [true, false, false, false]),
        ("0", [false, false, false, true]),
    ] {
        let text = format!("vector-bytes 16\nword 00000000\nexpect answer {values}\n");
        let script = parse(&text).expect("a good script");
        let last = script.steps.last().map(|step| &step.action);
        let Some(Action::Expect(Expectation::Answer(answer))) = last else {
            panic!("{last:?}");
        };
        let found = [outside(0x1F, 3), outside(0x1F, 4), outside(0x20, 3), Ok(())];
        assert_eq!(found.map(|found| answer.is(found)), is, "{values}");
    }
}

#[test]
fn files_are_named() {
    faults(&[
        (
            "B;memory-file",
            "k:2: 'memory-file' takes the name of a file",
        ),
        (
            "B;words-file # none",
            "k:2: 'words-file' takes the name of a file",
        ),
        (
            "B;array-file \t",
            "k:2: 'array-file' takes the name of a file",
        ),
        (
            "B;word 00000000;memory-file a.bin",
            "k:3: 'memory-file' comes before the first word",
        ),
        (
            "B;words-file no such file",
            "k:2: 'no such file' cannot be read: ",
        ),
        ("words-file a", "k:1: 'vector-bytes' is missing"),
    ]);
    assert_eq!(path("words-file  a b\t"), Ok("a b"));
}

#[test]
fn lines_are_checked() {
    faults(&[
        (
            "B;wort C0000000",
            "k:2: 'wort' is no statement; there are vector-bytes, level",
        ),
        ("B;Word C0000000", "k:2: 'Word' is no statement"),
        (
            "B;# a\u{1b}[31m comment",
            "k:2: the line has a control character, '\\u{1b}'",
        ),
        (
            "B;word C0000000\rword C0000000",
            "k:2: the line has a control character, '\\r'",
        ),
        // Only at the very start of a file is a byte order mark skipped.
        (
            "B;\u{feff}word C0000000",
            "k:2: '\\u{feff}word' is no statement",
        ),
        (
            "B;word\u{a0}C0000000",
            "k:2: 'word\\u{a0}C0000000' is no statement",
        ),
    ]);
}

#[test]
fn what_is_not_stated_has_its_default() {
    let script = parse("vector-bytes 32\nword C0000000\n").expect("a good script");
    let settings = script.settings;
    assert_eq!((settings.vector_bytes, settings.level), (32, 3));
    assert!(settings.streaming && settings.za && settings.stack_check);
    assert_eq!(settings.memory_address, 0);
    assert!(script.memory.is_empty());
}

/// The statement changes the one setting, before and after the others.
#[test]
fn the_stack_check_is_on_or_off_as_stated() {
    let settings = |text: &str| parse(text).expect("a good script").settings;
    let unstated = settings("vector-bytes 32\nword C0000000\n");
    for (switch, on) in [("on", true), ("off", false)] {
        let expected = unstated.with_stack_check(on);
        let first = format!("stack-check {switch}\nvector-bytes 32\nword C0000000\n");
        assert_eq!(settings(&first), expected);
        let last = format!("vector-bytes 32\nstack-check {switch}\nword C0000000\n");
        assert_eq!(settings(&last), expected);
    }
}

/// It is the vector length if it is not stated; the statement changes nothing else, before and after the others.
#[test]
fn the_largest_vector_length_is_as_stated() {
    let settings = |text: &str| parse(text).expect("a good script").settings;
    let unstated = settings("vector-bytes 32\nword C0000000\n");
    assert_eq!(unstated.largest_vector_bytes, 32);
    for bytes in [32, 64, 128, 256] {
        let mut expected = unstated;
        expected.largest_vector_bytes = bytes;
        let first = format!("largest-vector-bytes {bytes}\nvector-bytes 32\nword C0000000\n");
        assert_eq!(settings(&first), expected);
        let last = format!("vector-bytes 32\nlargest-vector-bytes {bytes}\nword C0000000\n");
        assert_eq!(settings(&last), expected);
    }
}

#[test]
fn a_script_is_taken_in_as_it_stands() {
    let text = "# a kernel\r\nvector-bytes 16\nlevel 1\nstreaming off\narray off\n\
                memory-address fedcba9876543210\n\tmemory 00 1122 # bytes\nmemory 33\n\
                predicate 1 FF 0f\nword C0000000 c0000001\nregister 31 10\nword 00000000";
    let script = parse(text).expect("a good script");
    assert!(!script.settings.streaming && !script.settings.za);
    assert_eq!(script.settings.level, 1);
    assert_eq!(script.settings.memory_address, 0xFEDC_BA98_7654_3210);
    assert_eq!(script.memory, [0, 0x11, 0x22, 0x33]);
    let steps: Vec<_> = script
        .steps
        .into_iter()
        .map(|step| (step.line, step.action))
        .collect();
    let predicate = Action::Content {
        place: Place::Predicate,
        number: 1,
        bytes: vec![0xFF, 0x0F],
    };
    let register = Action::Register {
        number: 31,
        value: 16,
    };
    let word = |word| {
        Action::Word(Word {
            word,
            file_byte: None,
            answer_expected: false,
        })
    };
    let expected = [
        (9, predicate),
        (10, word(0xC0000000)),
        (10, word(0xC0000001)),
        (11, register),
        (12, word(0)),
    ];
    assert_eq!(steps, expected);
}
