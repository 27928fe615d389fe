//! The lines that go in and out.

use crate::lines;

/// The printed form of the answers.
#[test]
fn lines_are_answered() {
    let decoded = |line: &str| lines::decode_line(line.as_bytes());
    assert_eq!(
        decoded("C080ACA9 01").unwrap(),
        "C080ACA9 01 0 1 4 1 2 1 13 3 5 0 0 1 C080ACA9"
    );
    assert_eq!(
        decoded("C082AD25 01").unwrap(),
        "C082AD25 01 0 6 4 1 2 1 13 3 5 0 0 1 C082AD25"
    );
    assert_eq!(
        decoded("C0064EFC 03").unwrap(),
        "C0064EFC 03 0 4 0 0 0 7 10 0 28 0 0 4 C0064EFC"
    );
    assert_eq!(
        decoded("E08CC7AE 01").unwrap(),
        "E08CC7AE 01 0 7 4 1 3 2 14 1 0 29 12 0 E08CC7AE"
    );
    assert_eq!(decoded("C0000010 03").unwrap(), "C0000010 03 3");
    assert_eq!(decoded("E1000000 03").unwrap(), "E1000000 03 3");
    assert_eq!(decoded("C0000000 04").unwrap(), "C0000000 04 1");
    let encoded = |line: &str| lines::encode_line(line.as_bytes());
    assert_eq!(
        encoded("01040102040D0305000001").unwrap(),
        "01040102040D0305000001 8 00000000"
    );
    assert_eq!(
        encoded("01040102010D0305000001").unwrap(),
        "01040102010D0305000001 0 C080ACA9"
    );
    assert_eq!(
        encoded("030000000308000A000002").unwrap(),
        "030000000308000A000002 0 C006086A"
    );
    assert_eq!(
        encoded("0510000B000E07000A1500").unwrap(),
        "0510000B000E07000A1500 0 E1F55D4B"
    );
}

/// Lines that are not of the agreed shape are errors, not answers.
#[test]
fn bad_lines_are_errors() {
    for line in [
        "",
        "C0000000",
        "C0000000 3",
        "c0000000 03",
        "C0000000 03 ",
        "C0000000\t03",
    ] {
        assert!(lines::decode_line(line.as_bytes()).is_err(), "{line:?}");
    }
    for line in [
        "",
        "01",
        "01040102010d0305000001",
        "01040102010D03050000011",
    ] {
        assert!(lines::encode_line(line.as_bytes()).is_err(), "{line:?}");
    }
}
