//! The exhaustive comparison on small ranges, and with programs that are deliberately wrong.

use compare::exhaustive::blocks::{Blocks, Draws, Workers};
use compare::exhaustive::codec::{Archive, Codec, Numbers, Programs, Second};
use compare::exhaustive::words::Words;
use compare::exhaustive::{executions, fields, words};
use second::execute::Mistake;
use std::ops::RangeInclusive;

const ONE: Workers = Workers { threads: 1 };
const TWO: Workers = Workers { threads: 2 };

/// Two blocks; words begin to decode in the first.
const RANGE: RangeInclusive<u32> = 0xBFFF_0000..=0xC010_00FF;
/// The last stores of 8-byte elements, and the first words of the next top
/// byte, which fit no row.
const ACCESSES: RangeInclusive<u32> = 0xE0FF_0000..=0xE101_00FF;
/// Decodes from level 1 on.
const WORD: u32 = 0xC000_0000;
/// The numbers of that word.
const FIELDS: Numbers = [1, 1, 0, 0, 0, 12, 0, 0, 0, 0, 1];

const DRAWS: Draws = Draws {
    seed: 7,
    count: 20_001,
};

/// The second program with its decoding changed.
struct WrongDecode<F>(F);

impl<F: Fn(u32, u64, &mut Numbers) -> Option<u32> + Sync> Codec for WrongDecode<F> {
    fn decode(&self, word: u32, level: u64, fields: &mut Numbers) -> u32 {
        let right = Second.decode(word, level, fields);
        self.0(word, level, fields).unwrap_or(right)
    }

    fn encode(&self, fields: &Numbers, word: &mut u32) -> u32 {
        Second.encode(fields, word)
    }
}

/// The second program with its encoding changed.
struct WrongEncode<F>(F);

impl<F: Fn(&Numbers, &mut u32) -> Option<u32> + Sync> Codec for WrongEncode<F> {
    fn decode(&self, word: u32, level: u64, fields: &mut Numbers) -> u32 {
        Second.decode(word, level, fields)
    }

    fn encode(&self, fields: &Numbers, word: &mut u32) -> u32 {
        let right = Second.encode(fields, word);
        self.0(fields, word).unwrap_or(right)
    }
}

/// What is told of a wrong program on the words of the range.
fn told_of_words(wrong: impl Codec) -> String {
    told_of_words_in(RANGE, wrong)
}

fn told_of_words_in(range: RangeInclusive<u32>, wrong: impl Codec) -> String {
    let programs = Programs {
        archive: wrong,
        second: Second,
    };
    words::compare(&programs, range, &TWO).expect_err("a difference")
}

/// What is told of a wrong program on the neighbours of the word's numbers.
fn told_of_fields(wrong: impl Codec) -> String {
    let programs = Programs {
        archive: wrong,
        second: Second,
    };
    fields::compare(&programs, &[FIELDS], DRAWS, &TWO).expect_err("a difference")
}

#[test]
fn words_agree_on_one_thread_and_on_two() {
    let one = words::compare(&Programs::REAL, RANGE, &ONE).expect("no difference");
    let two = words::compare(&Programs::REAL, RANGE, &TWO).expect("no difference");
    assert_eq!(one, two);
    assert_eq!(one.words, 0x11_0100);
    // Moves of bytes to and from tiles from level 1 on, two and four vectors
    // of the array from level 2 on; all that zeroes at level 3.
    let tiles = 32768 + 32768;
    let array = 512 + 256;
    let zeroing = 4096 + 512 + 256;
    let decoding = [0, tiles, tiles + array, tiles + array + zeroing];
    assert_eq!(one.decoding, decoding);
    assert_eq!(one.check(), Ok(()));
}

#[test]
fn words_of_loads_and_stores_agree() {
    let found = words::compare(&Programs::REAL, ACCESSES, &TWO).expect("no difference");
    // Of the words with bit 24 clear, those with bit 4 clear.
    assert_eq!(found.decoding, [0, 32768, 32768, 32768]);
    let loads = words::compare(&Programs::REAL, 0xE1C0_0000..=0xE1C0_FFFF, &TWO);
    assert_eq!(loads.expect("no difference").decoding[1], 32768);
}

#[test]
fn the_ends_of_the_range_are_compared() {
    for range in [0..=0, WORD..=WORD, u32::MAX - 2..=u32::MAX] {
        let expected = u64::from(range.end() - range.start()) + 1;
        let found = words::compare(&Programs::REAL, range, &TWO).expect("no difference");
        assert_eq!(found.words, expected);
    }
}

#[test]
fn a_wrong_count_of_all_words_is_told() {
    let counted = |decoding| Words {
        words: 1 << 32,
        decoding,
        at_other_levels: 0,
    };
    let [none, sme, sme2, sme2p1] = words::DECODING;
    assert!(counted(words::DECODING).check().is_ok());
    assert!(counted([none, sme, sme2, sme2p1 - 1]).check().is_err());
}

#[test]
fn a_wrong_answer_is_noticed_with_its_word_and_level() {
    let wrong = WrongDecode(|word, level, _: &mut Numbers| {
        let here = word == WORD + 0xF && level == 2;
        here.then_some(3)
    });
    let told = told_of_words(wrong);
    assert!(told.contains("word C000000F at level 2\n"), "{told}");
    assert!(told.contains("archive: decoding answers 3 and"), "{told}");
    assert!(told.contains("second:  decoding answers 0 and"), "{told}");
}

#[test]
fn each_wrong_number_is_noticed() {
    for place in 0..FIELDS.len() {
        let told = told_of_words(WrongDecode(|word, level, fields: &mut Numbers| {
            if word == WORD && level == 3 {
                fields[place] ^= 0x80;
            }
            None
        }));
        assert!(told.contains("word C0000000 at level 3\n"), "{told}");
    }
}

#[test]
fn the_lowest_of_two_differences_is_told() {
    let told = told_of_words(WrongDecode(|word, _, _: &mut Numbers| {
        [0xC010_0000, 0xBFFF_0001].contains(&word).then_some(0)
    }));
    assert!(told.contains("word BFFF0001 at level 0\n"), "{told}");
}

/// A move from a tile differs from its zeroing twin in bit 9 and the
/// predicate, which the twin has not.
#[test]
fn a_bit_that_is_not_looked_at_is_noticed() {
    for (bits, told_word) in [
        (0x200, "C0020200 at level 1"),
        (0x1C00, "C0020600 at level 3"),
    ] {
        let told = told_of_words(WrongDecode(|word: u32, level, fields: &mut Numbers| {
            let twin = word & 0xFFFF_0200 == 0xC002_0200;
            twin.then(|| Second.decode(word & !bits, level, fields))
        }));
        assert!(told.contains(&format!("word {told_word}\n")), "{told}");
    }
}

/// Loads differ from stores in bit 21, and those of 16-byte elements from
/// others in bit 24, which goes with no smaller size but that of 8 bytes.
#[test]
fn a_bit_of_loads_and_stores_that_is_not_looked_at_is_noticed() {
    for (bits, told_word) in [
        (0x10, "E0FF0010 at level 1"),
        (0x20_0000, "E0FF0000 at level 1"),
        (0x100_0000, "E1000000 at level 1"),
    ] {
        let told = told_of_words_in(
            ACCESSES,
            WrongDecode(|word: u32, level, fields: &mut Numbers| {
                let seen = word & !bits;
                (word != seen).then(|| Second.decode(seen, level, fields))
            }),
        );
        assert!(told.contains(&format!("word {told_word}\n")), "{told}");
    }
}

#[test]
fn a_wrong_answer_at_no_level_is_noticed() {
    let told = told_of_words(WrongDecode(|word, level, _: &mut Numbers| {
        (word == WORD && level == 1 << 32).then_some(3)
    }));
    assert!(told.contains("C0000000 at level 4294967296\n"), "{told}");
}

#[test]
fn a_refusal_that_writes_is_noticed_even_where_both_do_it() {
    let writes = |word, _, fields: &mut Numbers| {
        if word == 0xC000_0010 {
            fields[10] = 0;
        }
        None
    };
    let alike = Programs {
        archive: WrongDecode(writes),
        second: WrongDecode(writes),
    };
    let told = [
        told_of_words(WrongDecode(writes)),
        words::compare(&alike, RANGE, &TWO).expect_err("a difference"),
    ];
    for told in told {
        assert!(told.contains("word C0000010 at level 0\n"), "{told}");
    }
}

#[test]
fn a_wrong_way_back_is_noticed() {
    let told = told_of_words(WrongEncode(|_: &Numbers, word: &mut u32| {
        if *word == WORD {
            *word += 1;
        }
        None
    }));
    assert!(told.contains("word C0000000 at level 1\n"), "{told}");
    assert!(told.contains("leaves C0000001\n"), "{told}");
}

#[test]
fn fields_agree_on_one_thread_and_on_two() {
    let base = [FIELDS];
    let one = fields::compare(&Programs::REAL, &base, DRAWS, &ONE).expect("no difference");
    let two = fields::compare(&Programs::REAL, &base, DRAWS, &TWO).expect("no difference");
    assert_eq!(one, two);
    assert_eq!(one.combinations, 55 * 65536 + DRAWS.count);
    // Of the random ones, some are encodable and most are not.
    assert!(one.encodable > DRAWS.count / 8);
}

#[test]
fn bases_are_encodable_and_of_every_kind_size_direction_and_number_of_registers() {
    let bases = fields::bases();
    let shape = |base: &Numbers| [base[0], base[1], base[2], base[10]];
    let mut shapes: Vec<[u8; 4]> = bases.iter().map(shape).collect();
    shapes.sort();
    shapes.dedup();
    // Five sizes of five kinds in two directions, and two array kinds of two
    // and of four registers.
    assert_eq!(shapes.len(), 2 * 5 * 5 + 2 * 2);
    assert_eq!(bases.len(), 1754);
    for base in &bases {
        assert_eq!(Archive.encode(base, &mut 0), 0, "{base:?}");
    }
}

/// Two and four registers of the array differ in the multiples that the
/// first register may be.
#[test]
fn a_first_register_between_the_groups_is_noticed() {
    const FOUR: Numbers = [4, 0, 0, 0, 0, 8, 0, 0, 0, 0, 4];
    let programs = Programs {
        archive: WrongEncode(|fields: &Numbers, word: &mut u32| {
            let between = fields[..7] == FOUR[..7] && fields[7] == 2 && fields[10] == 4;
            between.then(|| *word = 0xC006_0E02).map(|()| 0)
        }),
        second: Second,
    };
    let told = fields::compare(&programs, &[FOUR], DRAWS, &TWO).expect_err("a difference");
    assert!(told.contains("numbers 4 0 0 0 0 8 0 2 0 0 4\n"), "{told}");
}

#[test]
fn a_wrong_encoding_is_noticed_even_where_both_do_it() {
    let accepts = |fields: &Numbers, word: &mut u32| {
        let here = fields[..10] == FIELDS[..10] && fields[10] == 2;
        here.then(|| *word = WORD).map(|()| 0)
    };
    let alike = Programs {
        archive: WrongEncode(accepts),
        second: WrongEncode(accepts),
    };
    let told = [
        told_of_fields(WrongEncode(accepts)),
        fields::compare(&alike, &[FIELDS], DRAWS, &TWO).expect_err("a difference"),
    ];
    for told in told {
        assert!(told.contains("numbers 1 1 0 0 0 12 0 0 0 0 2\n"), "{told}");
    }
}

#[test]
fn a_refusal_that_leaves_a_word_is_noticed() {
    let told = told_of_fields(WrongEncode(|fields: &Numbers, word: &mut u32| {
        if fields[4] == 16 {
            *word = 0x5A5A_5A5A;
        }
        None
    }));
    assert!(told.contains("answers 8 and leaves 5A5A5A5A\n"), "{told}");
}

#[test]
fn executions_agree_and_count_the_same_on_one_thread_and_on_two() {
    let one = executions::compare(DRAWS, Mistake::None, &ONE).expect("no difference");
    let two = executions::compare(DRAWS, Mistake::None, &TWO).expect("no difference");
    assert_eq!(one.to_string(), two.to_string());
    assert_eq!(one.cases(), DRAWS.count);
    assert_eq!(one.check(), Ok(()));
}

#[test]
fn a_wrong_execution_is_told_alike_on_one_thread_and_on_two() {
    let told = [&ONE, &TWO].map(|workers| {
        executions::compare(DRAWS, Mistake::StoreBeforeFault, workers)
            .err()
            .expect("a difference")
    });
    assert_eq!(told[0], told[1]);
    assert!(told[0].starts_with("DIFFERENCE in case "), "{}", told[0]);
}

#[test]
fn blocks_cover_everything_once() {
    let blocks = Blocks {
        count: 25,
        size: 10,
    };
    let ranges: Vec<_> = (0..blocks.number()).map(|at| blocks.range(at)).collect();
    assert_eq!(ranges, [0..10, 10..20, 20..25]);
}

#[test]
fn block_seeds_differ() {
    let mut seeds: Vec<u64> = (0..3)
        .flat_map(|seed| (0..100).map(move |block| Draws { seed, count: 0 }.block_seed(block)))
        .collect();
    seeds.sort();
    seeds.dedup();
    assert_eq!(seeds.len(), 300);
}
