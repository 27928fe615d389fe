use super::*;

fn fault(line: &str) -> String {
    let arguments = line.split_whitespace().map(OsString::from);
    parse(arguments).err().unwrap_or_default()
}

#[test]
fn wrong_command_lines_are_refused() {
    for (line, message) in [
        ("--colour never", "there is no option '--colour'"),
        ("-x", "there is no option '-x'"),
        ("--all=1", "there is no option '--all=1'"),
        ("--color sometimes", "--color is auto, always or never"),
        ("--color", "--color takes a value"),
        ("--width 80 --width=90", "--width is given twice"),
        ("--width wide", "--width takes a decimal number, not 'wide'"),
        ("--decode", "--decode takes one or more words"),
        (
            "--map kernel.txt",
            "--map takes no file, but 'kernel.txt' is given",
        ),
        ("a b", "one file is enough; 'b' is more"),
        ("--array-out -", "--array-out takes a file, not -"),
    ] {
        assert_eq!(fault(line), message, "{line}");
    }
    assert!(fault("--decode C080").ends_with("'C080' has 4"));
    assert!(fault("--map --vector-bytes 48").starts_with("'48' is no vector length"));
}

#[test]
fn options_go_with_their_tasks() {
    for (line, message) in [
        ("--decode --map", "--decode and --map do not go together"),
        (
            "--encode --decode",
            "--decode and --encode do not go together",
        ),
        ("--json --quiet", "--quiet and --json do not go together"),
        (
            "--decode --svg a.svg C0000000",
            "--svg goes only with --map, --take or --give-up",
        ),
        (
            "--vector-bytes 32 kernel.txt",
            "--vector-bytes goes only with --map, --take or --give-up",
        ),
        ("--level 2 kernel.txt", "--level goes only with --decode"),
        ("--encode --level 1", "--level goes only with --decode"),
        (
            "--decode --strict 00000000",
            "--strict goes only with a script",
        ),
        ("--map --json", "--json goes only with a script"),
        ("--map --quiet", "--quiet goes only with a script"),
        (
            "--take 1 --words-out a",
            "--words-out goes only with a script",
        ),
    ] {
        assert_eq!(fault(line), message, "{line}");
    }
}

#[test]
fn numbers_to_encode_are_eleven_and_small() {
    let count = "--encode takes the eleven numbers of each word, not";
    let small = "--encode takes decimal numbers of at most 255, not";
    for (line, message) in [
        ("--encode", format!("{count} 0 numbers")),
        (
            "--encode 1 4 1 2 1 13 3 5 0 0",
            format!("{count} 10 numbers"),
        ),
        (
            "--encode 1 4 1 2 1 13 3 5 0 0 1 7",
            format!("{count} 12 numbers"),
        ),
        (
            "--encode 1 4 1 2 1 13 3 5 0 0 256",
            format!("{small} '256'"),
        ),
        ("--encode 1 4 1 2 1 0D 3 5 0 0 1", format!("{small} '0D'")),
    ] {
        assert_eq!(fault(line), message, "{line}");
    }
}

#[test]
fn wrong_requests_for_a_tile_are_refused() {
    for (line, message) in [
        ("--map --take 4", "--map and --take do not go together"),
        (
            "--take 4 --decode 4:1",
            "--decode and --take do not go together",
        ),
        (
            "--take 4 --give-up 4:1",
            "--take and --give-up do not go together",
        ),
        ("--give-up", "--give-up takes a value"),
        (
            "--give-up 4",
            "a tile to give up is its element bytes and its number, such as 4:1, not '4'",
        ),
        ("--take", "--take takes a value"),
        ("--take 4 --take 2", "--take is given twice"),
        ("--take 4:1", "--take takes a decimal number, not '4:1'"),
        ("--take 4 --level 1", "--level goes only with --decode"),
    ] {
        assert_eq!(fault(line), message, "{line}");
    }
}

#[test]
fn a_held_tile_is_two_decimal_numbers() {
    for tile in [
        "4",
        "4:",
        ":1",
        "4:1:1",
        "4:01",
        "4:+1",
        "4;1",
        "A:1",
        "4:1,",
        "4:18446744073709551616",
    ] {
        let message = "a held tile is its element bytes and its number, such as 4:1, not";
        let line = format!("--take 4 8:3 {tile}");
        assert_eq!(fault(&line), format!("{message} '{tile}'"));
    }
}

#[test]
fn right_command_lines_are_understood() {
    for line in [
        "",
        "-",
        "-- -odd-name",
        "--all kernel.txt --color=never",
        "--decode --level 1 C0000000 c0000010",
        "--map --vector-bytes 256 --svg map.svg",
        "--take 4",
        "--take=4 2:0 8:3 --vector-bytes 32 --svg -",
        "--take 3 257:0 0:18446744073709551615",
        "--give-up 8:3 2:0 8:3 --vector-bytes 32 --svg -",
        "--give-up=9:9",
        "--encode 1 4 1 2 1 13 3 5 0 0 1",
        "--encode 1 4 1 2 1 13 3 5 0 0 1 0 0 0 0 0 0 0 0 0 255 0",
        "--width 18446744073709551615",
        "--version",
        "--strict --quiet kernel.txt --words-out a --memory-out b --array-out c",
        "--help anything",
    ] {
        assert_eq!(fault(line), "", "{line}");
    }
}

#[test]
fn held_tiles_are_taken_in_as_they_are() {
    let line = ["--take", "5", "8:3", "0:18446744073709551615", "8:3"];
    let Ok(Task::Ask {
        question,
        held,
        sheet,
    }) = parse(line.into_iter().map(OsString::from)).map(|command| command.task)
    else {
        panic!("the line is understood");
    };
    let numbers: Vec<_> = held
        .iter()
        .map(|tile| (tile.element_bytes, tile.number))
        .collect();
    assert_eq!(numbers, [(8, 3), (0, u64::MAX), (8, 3)]);
    assert_eq!(question, Question::Take { element_bytes: 5 });
    assert_eq!((sheet.vector_bytes, sheet.drawing), (16, None));
}
