//! Unit tests of the comparison itself; they do not ask the archive.

use crate::arguments::Arguments;
use crate::case::{Case, Outcome};
use crate::counts::{enough, Counts};
use crate::exhaustive::arguments as exhaustive;
use crate::exhaustive::progress;
use crate::generate::generate;
use crate::names::{self, is_access, Named};
use crate::pairs::{Pair, PAIRS};
use crate::paths::bits::{alike, Bits, BLOCK};
use crate::rows::{encoding, Drawn, NO_ENCODING, OF_DOCUMENT, TABLE};
use crate::table::{Table, NAMES};
use crate::view::View;
use crate::worked;
use second::execute::Mistake;
use second::inputs::random::Random;
use second::inputs::rows::Row;
use sme_move::Kind;
use std::ffi::OsString;
use std::time::Duration;

const EACH: [Drawn; 3] = [Drawn::All, Drawn::Request1, Drawn::Request2];

fn read(line: &str) -> Result<Arguments, String> {
    Arguments::read(line.split_whitespace().map(OsString::from))
}

#[test]
fn arguments_are_read() {
    let plain = read("").unwrap();
    assert_eq!((plain.count, plain.mistake), (1_000_000, Mistake::None));
    assert_eq!(plain.drawn, Drawn::All);
    let all = read("--mistake TileAsBlock --seed 0x1F --request 1 --count 12").unwrap();
    assert_eq!((all.seed, all.count), (31, 12));
    assert_eq!(all.mistake, Mistake::TileAsBlock);
    assert_eq!(all.drawn, Drawn::Request1);
    assert_eq!(read("--request 2").unwrap().drawn, Drawn::Request2);
}

#[test]
fn bad_arguments_are_errors() {
    for line in [
        "--seed",
        "--seed x",
        "--mistake Tile",
        "--added",
        "--request",
        "--request 0",
        "--request 3",
        "--other 1",
        "7",
    ] {
        assert!(read(line).is_err(), "{line}");
    }
}

fn read_exhaustive(line: &str) -> Result<exhaustive::Arguments, String> {
    exhaustive::Arguments::read(line.split_whitespace().map(OsString::from))
}

#[test]
fn arguments_of_the_exhaustive_comparison_are_read() {
    use exhaustive::Part::{Executions, Fields, Words};
    let plain = read_exhaustive("").unwrap();
    assert_eq!(plain.parts, [Words, Fields, Executions]);
    assert_eq!((plain.from, plain.to), (0, u32::MAX));
    assert_eq!(plain.draws.count, 10_000_000);
    assert!(plain.workers.threads > 0);
    let line = "--executions --words --from C0000000 --to c00000ff --count 5 --seed 1 --threads 3";
    let all = read_exhaustive(line).unwrap();
    assert_eq!(all.parts, [Words, Executions]);
    assert_eq!((all.from, all.to), (0xC000_0000, 0xC000_00FF));
    assert_eq!((all.draws.seed, all.draws.count), (1, 5));
    assert_eq!(all.workers.threads, 3);
}

#[test]
fn bad_arguments_of_the_exhaustive_comparison_are_errors() {
    for line in [
        "--from",
        "--from 0",
        "--to +0000001",
        "--from 00000002 --to 00000001",
        "--threads 0",
        "--count many",
        "--word",
        "words",
    ] {
        assert!(read_exhaustive(line).is_err(), "{line}");
    }
}

#[test]
fn progress_tells_what_is_left() {
    let line = progress::line("words", 1, 4, Duration::from_secs(25));
    assert_eq!(line, "words: 25.0 % done, 1 min 15 s left");
    let line = progress::line("words", 4, 4, Duration::from_secs(25));
    assert_eq!(line, "words: 100.0 % done, 0 min 00 s left");
}

/// As many cases as are judged, by the second program alone, leave nothing to
/// complain of.
fn reach_all_that_can_occur(drawn: Drawn) {
    let mut random = Random::new(11);
    let mut case = Case::empty();
    let mut outcome = Outcome::default();
    let mut counts = Counts::new(drawn);
    for _ in 0..enough(drawn) {
        generate(&mut random, &mut case, drawn);
        outcome.run_second(&case, Mistake::None);
        counts.add(&case, &outcome);
    }
    assert_eq!(counts.check(), Ok(()));
}

#[test]
fn cases_reach_all_that_can_occur() {
    reach_all_that_can_occur(Drawn::All);
}

#[test]
fn cases_of_request_1_reach_all_that_can_occur() {
    reach_all_that_can_occur(Drawn::Request1);
}

#[test]
fn cases_of_request_2_reach_all_that_can_occur() {
    reach_all_that_can_occur(Drawn::Request2);
}

/// A run that never had long memory is told so, of loads and stores done and
/// refused with 7, and of nothing else.
#[test]
fn missing_long_memory_is_told() {
    let mut random = Random::new(11);
    let mut case = Case::empty();
    let mut outcome = Outcome::default();
    let mut counts = Counts::new(Drawn::Request2);
    while counts.cases() < enough(Drawn::Request2) {
        generate(&mut random, &mut case, Drawn::Request2);
        if case.memory.len() < 1 << 10 {
            outcome.run_second(&case, Mistake::None);
            counts.add(&case, &outcome);
        }
    }
    let told = counts.check().expect_err("long memory is missing");
    let of_memory = |line: &str| line.contains("KiB") || line.contains("of memory on");
    assert!(told.lines().all(of_memory), "{told}");
    for name in ["store", "load"] {
        for m in [2, 4, 8, 16] {
            for what in ["done", "fault"] {
                let line = format!("never: {name}, m={m}, {what}, memory of over 64 KiB to 1 MiB");
                assert!(told.contains(&line), "{line}");
            }
        }
    }
}

/// A run that never had the stack check off is told so of every encoding, and
/// of loads and stores by a misaligned stack pointer, done and refused with 7;
/// one that never had it on is told so too, and that 6 was never given.
#[test]
fn missing_positions_of_the_stack_check_are_told() {
    for stack_check in [true, false] {
        let mut random = Random::new(11);
        let mut case = Case::empty();
        let mut outcome = Outcome::default();
        let mut counts = Counts::new(Drawn::Request2);
        for _ in 0..enough(Drawn::Request2) {
            generate(&mut random, &mut case, Drawn::Request2);
            case.settings.stack_check = stack_check;
            outcome.run_second(&case, Mistake::None);
            counts.add(&case, &outcome);
        }
        let told = counts.check().expect_err("a position is missing");
        let missing = format!("stack check {}", names::on_or_off(!stack_check));
        for name in &NAMES[Drawn::Request2.rows()] {
            let lengths = "vector length 16 in buffers for 64";
            let line = format!("{name}, {lengths}, {missing}, answer 0: 0 cases");
            assert!(told.contains(&line), "{line}");
        }
        for name in ["store", "load"] {
            let line = |m: u8, what: &str| told.contains(&format!("never: {name}, m={m}, {what}"));
            for m in [2, 4, 8, 16] {
                assert_eq!(line(m, "6"), !stack_check);
                for what in ["done", "fault"] {
                    let by_stack = format!("{what}, by a misaligned stack pointer");
                    assert_eq!(line(m, &by_stack), stack_check);
                }
            }
        }
    }
}

/// A run that never had buffers for longer vectors is told so of every pair
/// and encoding, and of what else has to be met there, and of nothing else.
#[test]
fn missing_long_buffers_are_told() {
    let drawn = Drawn::Request1;
    let mut random = Random::new(11);
    let mut case = Case::empty();
    let mut outcome = Outcome::default();
    let mut counts = Counts::new(drawn);
    while counts.cases() < enough(drawn) {
        generate(&mut random, &mut case, drawn);
        if case.settings.vector_bytes >= case.settings.largest_vector_bytes {
            outcome.run_second(&case, Mistake::None);
            counts.add(&case, &outcome);
        }
    }
    let told = counts.check().expect_err("long buffers are missing");
    for pair in PAIRS {
        for name in &NAMES[drawn.rows()] {
            let line = format!("{name}, {pair}, stack check on, answer 0: 0 cases");
            assert_eq!(told.contains(&line), pair.is_long(), "{line}");
        }
        let line = format!("never: done, {pair}, another vertical slice");
        assert_eq!(told.contains(&line), pair.is_long(), "{line}");
    }
    for what in [
        "never: Z, P and ZA as the vector length would fix, only that wrong, 2",
        "never: done, move from tile, long buffers, no element active, all bits beyond set",
    ] {
        assert!(told.contains(what), "{what}");
    }
    let of_largest = |line: &str| line.contains("in buffers") || line.contains("largest");
    let of_beyond = |line: &str| line.contains("long buffers") || line.contains("would fix");
    assert!(
        told.lines().all(|line| of_largest(line) || of_beyond(line)),
        "{told}"
    );
}

/// Whether the governing predicate has a block of mixed bytes alone.
fn has_mixed_block(case: &Case) -> bool {
    let outcome = Outcome::default();
    let view = View::new(case, &outcome);
    let operation = view.operation.filter(|_| view.predicated());
    operation.is_some_and(|own| {
        let m = usize::from(own.element_bytes);
        let mut blocks = view.predicate().chunks_exact(BLOCK);
        blocks.any(|block| alike(block, m) == Some(Bits::Mixed))
    })
}

/// A run that never had a block of mixed bytes alone is told so, of each size
/// that can have one, and of nothing else.
#[test]
fn missing_blocks_are_told() {
    let drawn = Drawn::Request1;
    let mut random = Random::new(11);
    let mut case = Case::empty();
    let mut outcome = Outcome::default();
    let mut counts = Counts::new(drawn);
    while counts.cases() < enough(drawn) {
        generate(&mut random, &mut case, drawn);
        if !has_mixed_block(&case) {
            outcome.run_second(&case, Mistake::None);
            counts.add(&case, &outcome);
        }
    }
    let told = counts.check().expect_err("a kind of block is missing");
    let line = |m| format!("never: done, move from tile, m={m}, horizontal, a block of mixed");
    assert_eq!(told.lines().count(), 3, "{told}");
    for m in [1, 2, 4] {
        assert!(told.contains(&line(m)), "{told}");
    }
}

/// Half of all cases have buffers for their own vectors, and in each half
/// every pair has its share.
#[test]
fn every_pair_has_its_share() {
    let mut random = Random::new(12);
    let mut counts = [0; PAIRS.len()];
    for _ in 0..100_000 {
        let pair = Pair::draw(&mut random);
        let number = PAIRS.iter().position(|own| *own == pair);
        counts[number.expect("it is a pair")] += 1;
    }
    let of = |long: bool| {
        let own = PAIRS
            .iter()
            .zip(counts)
            .filter(|(pair, _)| pair.is_long() == long);
        own.map(|(_, count)| count).collect::<Vec<_>>()
    };
    assert_eq!((of(false).len(), of(true).len()), (5, 10));
    assert!(share(&of(false)).abs_diff(10_000) < 500);
    assert!(share(&of(true)).abs_diff(5_000) < 250);
}

/// How many of 100,000 cases have words of each row, and of none.
fn counts_of_rows(drawn: Drawn) -> [usize; NO_ENCODING + 1] {
    let mut random = Random::new(12);
    let mut case = Case::empty();
    let mut counts = [0; NO_ENCODING + 1];
    for _ in 0..100_000 {
        generate(&mut random, &mut case, drawn);
        counts[encoding(case.word).unwrap_or(NO_ENCODING)] += 1;
    }
    counts
}

/// The mean of counts that differ from it by less than a tenth.
fn share(counts: &[usize]) -> usize {
    let mean = counts.iter().sum::<usize>() / counts.len();
    let near = |count: &usize| count.abs_diff(mean) < mean / 10;
    assert!(counts.iter().all(near), "{counts:?}");
    mean
}

/// Every move has one share of the rows, and so has every load and store
/// beside the cases that only they can have.
#[test]
fn every_row_has_its_share() {
    let counts = counts_of_rows(Drawn::All);
    let (accesses, moves): (Vec<usize>, Vec<usize>) =
        (0..NO_ENCODING).partition(|&row| is_access(TABLE[row].kind()));
    let [accesses, moves] = [accesses, moves].map(|rows| {
        let counts: Vec<usize> = rows.into_iter().map(|row| counts[row]).collect();
        share(&counts)
    });
    assert!(accesses > moves && accesses < 2 * moves);
    assert!(counts[NO_ENCODING] > 0);
}

/// The rows of a request have all cases among them, but for the words that
/// fit none.
#[test]
fn every_row_of_a_request_has_its_share() {
    for drawn in [Drawn::Request1, Drawn::Request2] {
        let counts = counts_of_rows(drawn);
        let rows = drawn.rows();
        assert!(share(&counts[rows.clone()]) > 90_000 / rows.len());
        let others = (0..NO_ENCODING).filter(|row| !rows.contains(row));
        assert_eq!(others.map(|row| counts[row]).sum::<usize>(), 0);
        assert!(counts[NO_ENCODING] > 0);
    }
}

/// What a row of the table of words is called.
fn name(row: &Row) -> String {
    let kind = names::name(row.kind());
    match row.vectors {
        0 | 1 => format!("{kind}, m={}", row.element_bytes),
        2 => format!("{kind}, two"),
        _ => format!("{kind}, four"),
    }
}

#[test]
fn rows_have_their_names() {
    assert_eq!(NAMES[..NO_ENCODING], TABLE.each_ref().map(name));
}

/// Kind, element bytes and number of vector registers of the rows.
fn shapes(drawn: Drawn) -> Vec<(Kind, u8, u8)> {
    let rows = TABLE[drawn.rows()].iter();
    let shape = |row: &Row| (row.kind(), row.element_bytes, row.vectors);
    rows.map(shape).collect()
}

/// Document 01's last row is the store of bytes. Request 1 added the moves
/// from a tile and two of the array, request 2 loads and the other stores.
#[test]
fn rows_of_requests_come_after_those_of_the_document() {
    assert_eq!(shapes(Drawn::All)[OF_DOCUMENT - 1], (Kind::St1, 1, 0));
    assert_eq!(Drawn::Request1.rows().start, OF_DOCUMENT);
    assert_eq!(Drawn::Request1.rows().end, Drawn::Request2.rows().start);
    assert_eq!(Drawn::Request2.rows().end, TABLE.len());
    let sizes = [1, 2, 4, 8, 16];
    let from_tile = sizes.map(|m| (Kind::MovaFromTile, m, 1));
    let array = [(Kind::MovaFromArray, 0, 2), (Kind::MovazFromArray, 0, 4)];
    assert_eq!(shapes(Drawn::Request1), [&from_tile[..], &array].concat());
    let stores = sizes.map(|m| (Kind::St1, m, 0));
    let loads = sizes.map(|m| (Kind::Ld1, m, 0));
    assert_eq!(shapes(Drawn::Request2), [&stores[1..], &loads].concat());
}

/// An empty run has much to complain of: each encoding has six answers, a
/// load or store eight, the words without an encoding three, each at fifteen
/// pairs of lengths, and each has two cells apart. All of it there is with the
/// stack check on and with it off, but for answer 6.
#[test]
fn missing_cells_are_told() {
    for (drawn, moves, accesses) in [
        (Drawn::All, 19, 10),
        (Drawn::Request1, 7, 0),
        (Drawn::Request2, 0, 9),
    ] {
        let missing = Table::new(drawn).missing();
        let cells = 2 * (moves * 6 + accesses * 8 + 3) - accesses;
        assert_eq!(missing.len(), cells * 15 + 4 * (moves + accesses + 1));
    }
}

/// An answer that no word of the case may get is told.
#[test]
fn impossible_cells_are_told() {
    let mut case = Case::empty();
    (
        case.settings.vector_bytes,
        case.settings.largest_vector_bytes,
    ) = (16, 32);
    case.word = 0xC000_0010;
    for (answer, told) in [(0, 1), (2, 0), (3, 0), (5, 1), (7, 1), (255, 1)] {
        let mut table = Table::new(Drawn::All);
        table.add(&case, answer);
        assert_eq!(table.impossible().len(), told, "{answer}");
    }
}

/// Answer 6 is told where the stack check is off, of loads and of stores.
#[test]
fn answer_6_is_told_with_the_stack_check_off() {
    let mut case = Case::empty();
    (
        case.settings.vector_bytes,
        case.settings.largest_vector_bytes,
    ) = (16, 16);
    for word in [0xE03F_03E0, 0xE01F_03E0] {
        case.word = word;
        for (stack_check, told) in [(true, 0), (false, 1)] {
            case.settings.stack_check = stack_check;
            let mut table = Table::new(Drawn::All);
            table.add(&case, 6);
            assert_eq!(table.impossible().len(), told, "{word:08X}");
        }
    }
}

/// Where only words of a request are drawn, others cannot occur, whatever
/// their answer.
#[test]
fn words_that_are_not_drawn_are_told() {
    let mut case = Case::empty();
    for lengths in [(16, 16), (16, 256), (17, 17), (32, 16)] {
        (
            case.settings.vector_bytes,
            case.settings.largest_vector_bytes,
        ) = lengths;
        // A word of document 01, one of each request, and one of none.
        for (word, told) in [
            (0xE020_0000, [0, 1, 1]),
            (0xC002_0000, [0, 0, 1]),
            (0xE060_0000, [0, 1, 0]),
            (0xE000_0010, [0, 0, 0]),
        ] {
            case.word = word;
            for (drawn, told) in EACH.into_iter().zip(told) {
                let mut table = Table::new(drawn);
                table.add(&case, 1);
                assert_eq!(table.impossible().len(), told, "{word:08X}");
            }
        }
    }
}

/// A worked example is held to what is written out in every part.
#[test]
fn worked_examples_are_held_to_each_part() {
    for worked in worked::list() {
        let right = || {
            let mut outcome = Outcome::default();
            outcome.run_second(&worked.case, Mistake::None);
            outcome
        };
        assert_eq!(worked.hold("second", &right()), Ok(()));
        let spoils: [fn(&mut Outcome); 8] = [
            |own| own.answer ^= 1,
            |own| own.address ^= 1,
            |own| own.element ^= 1,
            |own| own.x[7] ^= 1,
            |own| own.z[7] ^= 1,
            |own| own.p[7] ^= 1,
            |own| own.za[7] ^= 1,
            |own| own.memory.push(1),
        ];
        for spoil in spoils {
            let mut outcome = right();
            spoil(&mut outcome);
            assert!(worked.hold("second", &outcome).is_err(), "{}", worked.name);
        }
    }
}

/// Each mistake about loads and stores, about where vectors lie, or about the
/// element is one that a worked example tells.
#[test]
fn worked_examples_tell_mistakes() {
    for mistake in [
        Mistake::StoreBeforeFault,
        Mistake::BaseThirtyOneAsZero,
        Mistake::OffsetThirtyOneAsStackPointer,
        Mistake::PredicateBitPerElement,
        Mistake::LoadKeepsInactive,
        Mistake::LoadKeepsTrailing,
        Mistake::OffsetNotScaled,
        Mistake::FaultAtElement,
        Mistake::FirstByteChecked,
        Mistake::BigEndian,
        Mistake::LongMemoryRefused,
        Mistake::FarBytesOutside,
        Mistake::MemoryLengthIn16Bits,
        Mistake::MemoryOffsetIn16Bits,
        Mistake::StackSwitchIgnored,
        Mistake::StackSwitchInverted,
        Mistake::StackSwitchForStoresOnly,
        Mistake::RegistersPacked,
        Mistake::PredicatesPacked,
        Mistake::ZaVectorsPacked,
        Mistake::LengthsByVectorLength,
        Mistake::LargestBelowAccepted,
        Mistake::BeyondCleared,
        Mistake::GroupsByLargest,
        Mistake::SlicesByLargest,
        Mistake::ElementAsByteOfSlice,
        Mistake::ElementAsByte,
        Mistake::ElementAsVector,
        Mistake::ElementFirstActive,
        Mistake::ElementAmongActive,
        Mistake::ElementInactive,
        Mistake::ElementLowestInMemory,
        Mistake::ElementLeftOver,
    ] {
        let told = |worked: &worked::Worked| {
            let mut outcome = Outcome::default();
            outcome.run_second(&worked.case, mistake);
            worked.hold("second", &outcome).is_err()
        };
        assert!(worked::list().iter().any(told), "{mistake:?}");
    }
}
