//! Listings through the archive, and with units that are deliberately wrong.

use compare::case::Answered;
use compare::exhaustive::blocks::{Draws, Workers};
use compare::listings;
use compare::listings::compared::{Compared, Units};
use compare::listings::counts::Counts;
use compare::listings::ended::{Ended, Runner, Told};
use compare::listings::listing::Listing;
use compare::worked::case;
use second::listing::ListingMistake;
use sme_move::{numbers, Buffers, Settings};

const ONE: Workers = Workers { threads: 1 };
const TWO: Workers = Workers { threads: 2 };

const DRAWS: Draws = Draws {
    seed: 7,
    count: 5001,
};

/// A move and zero of row 0 of the byte tile to vector register 0.
const WORD: u32 = 0xC002_0200;

/// What is found of the archive, with another function in the place of the one that runs listings.
fn with_runner(listing: Runner, workers: &Workers) -> Result<Counts, String> {
    let units = Units {
        listing,
        ..Units::archive(ListingMistake::None)
    };
    listings::compare(&units, DRAWS, workers)
}

/// A listing of these words on vectors of 16 bytes.
fn listing(words: &[u32], allowance: u64) -> Listing {
    Listing {
        case: case(16, 0),
        bytes: words.iter().flat_map(|word| word.to_le_bytes()).collect(),
        allowance,
        reach: words.len(),
    }
}

#[test]
fn listings_agree_on_one_thread_and_on_two() {
    let [one, two] = [ONE, TWO].map(|workers| with_runner(numbers::run_listing, &workers));
    assert_eq!(one, two);
    assert_eq!(one.expect("no difference").listings(), DRAWS.count);
}

#[test]
fn mistakes_are_noticed() {
    for (name, mistake) in ListingMistake::NAMED {
        let told = listings::compare(&Units::archive(mistake), DRAWS, &TWO).expect_err(name);
        let start = "DIFFERENCE in listing ";
        assert!(told.starts_with(start), "{name}: {told}");
        assert!(told.contains(": the two programs differ\n"), "{name}");
    }
}

/// The unit tells one word more than it did, but with a refusal before any.
fn counting_more(settings: Settings, bytes: &[u8], allowance: u64, buffers: Buffers<'_>) -> Told {
    let (answer, address, element, done) =
        numbers::run_listing(settings, bytes, allowance, buffers);
    (answer, address, element, done + u64::from(done > 0))
}

#[test]
fn a_difference_is_told_in_full_and_alike_on_one_thread_and_on_two() {
    let [one, two] = [ONE, TWO].map(|workers| with_runner(counting_more, &workers));
    assert_eq!(one, two);
    assert!(one.is_err());
    let units = Units {
        listing: counting_more,
        ..Units::archive(ListingMistake::None)
    };
    let own = listing(&[WORD; 9], 1 << 32);
    let found = Compared::new(units).differing(&own);
    let told = found.expect("a difference").told(12, own);
    for part in [
        "DIFFERENCE in listing 12: the listing ends otherwise than single calls",
        "\nsettings: vector length 16 in buffers for 16, level 3, ",
        "\nlisting: 9 words and 0 bytes, allowance 4294967296 (0x100000000)\n  0 C0020200 ",
        "\n  8 C0020200\n",
        "\nanswer: single 0, listing 0\n",
        "\nwords done: single 9, listing 10\n",
        "\nX0 ",
    ] {
        assert!(told.contains(part), "{part} is not in\n{told}");
    }
    assert!(!told.contains("bytes differ"), "{told}");
}

/// What is wrong with a unit: it changes what it tells, and what it was lent.
type Spoil = fn(&mut Told, &mut Buffers<'_>);

/// Every part of what a call gives back, and every buffer that it may write.
const SPOILS: [Spoil; 9] = [
    |told, _| told.0 ^= 1,
    |told, _| told.1 += u64::from(told.0 == 7),
    |told, _| told.1 += u64::from(told.0 == 9),
    |told, _| told.2 += u64::from(told.0 == 7),
    |told, _| told.2 += u64::from(told.0 == 3 && told.3 > 50),
    |told, _| told.3 = told.3.min(150),
    |_, buffers| change_last(buffers.z),
    |_, buffers| change_last(buffers.za),
    |_, buffers| change_last(buffers.memory),
];

fn change_last(bytes: &mut [u8]) {
    if let Some(byte) = bytes.last_mut() {
        *byte ^= 1;
    }
}

/// The same buffers, lent for one call.
fn lend_again<'a>(buffers: &'a mut Buffers<'_>) -> Buffers<'a> {
    Buffers {
        x: buffers.x,
        z: buffers.z,
        p: buffers.p,
        za: buffers.za,
        memory: buffers.memory,
    }
}

/// The unit with the spoil of this number.
fn spoiled<const NUMBER: usize>(
    settings: Settings,
    bytes: &[u8],
    allowance: u64,
    mut buffers: Buffers<'_>,
) -> Told {
    let mut told = numbers::run_listing(settings, bytes, allowance, lend_again(&mut buffers));
    SPOILS[NUMBER](&mut told, &mut buffers);
    told
}

#[test]
fn each_part_that_is_wrong_is_noticed() {
    let runners: [Runner; SPOILS.len()] = [
        spoiled::<0>,
        spoiled::<1>,
        spoiled::<2>,
        spoiled::<3>,
        spoiled::<4>,
        spoiled::<5>,
        spoiled::<6>,
        spoiled::<7>,
        spoiled::<8>,
    ];
    for (number, runner) in runners.into_iter().enumerate() {
        assert!(with_runner(runner, &TWO).is_err(), "{number}");
    }
}

/// A unit whose single calls differ is noticed, although its listings are those of the second program.
#[test]
fn single_calls_that_are_wrong_are_noticed() {
    fn wrong(settings: Settings, word: u32, buffers: Buffers<'_>) -> Answered {
        let (answer, address, element) = numbers::execute(settings, word, buffers);
        (answer, address, element + u64::from(answer == 7))
    }
    let units = Units {
        word: wrong,
        ..Units::archive(ListingMistake::None)
    };
    let told = listings::compare(&units, DRAWS, &TWO).expect_err("a difference");
    assert!(told.contains(": the listing ends otherwise than single calls"));
}

/// A unit that makes its listings of single calls, and overlooks what these do not tell.
fn made_of_words(
    settings: Settings,
    bytes: &[u8],
    allowance: u64,
    mut buffers: Buffers<'_>,
) -> Told {
    let (words, _) = bytes.as_chunks::<4>();
    let mut done = 0;
    for word in words.iter().take(allowance.min(1000) as usize) {
        let word = u32::from_le_bytes(*word);
        let (answer, address, element) = numbers::execute(settings, word, lend_again(&mut buffers));
        if answer != 0 {
            return (answer, address, element, done);
        }
        done += 1;
    }
    (0, 0, 0, done)
}

/// Answers before any word are held to the rules.
#[test]
fn answers_before_any_word_are_those_of_the_rules() {
    let told = with_runner(made_of_words, &TWO).expect_err("a difference");
    let head = ": answers 1, 2 and 9 are not given as the rules say\n";
    assert!(told.contains(head), "{told}");
    let units = Units {
        listing: made_of_words,
        ..Units::archive(ListingMistake::None)
    };
    type Spoil = fn(&mut Listing);
    let spoils: [(Spoil, &str); 3] = [
        (
            |own| own.case.settings.level = 4,
            "\nanswer: rules 1, archive 0\n",
        ),
        (
            |own| own.case.z.truncate(1),
            "\nanswer: rules 2, archive 0\n",
        ),
        (|own| own.bytes.push(1), "\nanswer: rules 9, archive 0\n"),
    ];
    for (spoil, expected) in spoils {
        let mut own = listing(&[WORD], 0);
        spoil(&mut own);
        let found = Compared::new(units).differing(&own);
        let told = found.expect("a difference").told(1, own);
        assert!(told.contains(expected), "{told}");
    }
}

/// The words done and the answer, of listings with the allowance at every border, written out.
#[test]
fn allowances_have_their_ends() {
    const REFUSED: u32 = 0xC000_0010;
    let words = [WORD, WORD, REFUSED, WORD];
    for (allowance, end) in [
        (0, (0, 0)),
        (1, (0, 1)),
        (2, (0, 2)),
        (3, (3, 2)),
        (4, (3, 2)),
        (5, (3, 2)),
        (1 << 32, (3, 2)),
        ((1 << 32) + 1, (3, 2)),
        (1 << 63, (3, 2)),
        (u64::MAX, (3, 2)),
    ] {
        let own = listing(&words, allowance);
        let mut compared = Compared::new(Units::archive(ListingMistake::None));
        assert!(compared.differing(&own).is_none(), "{allowance}");
        let Ended { outcome, done } = compared.agreed();
        assert_eq!((outcome.answer, *done), end, "{allowance}");
        // The row goes to the register by the first word, and zeros by the second.
        let moved = &own.case.za[..16];
        let register = match done {
            0 => &own.case.z[..16],
            1 => moved,
            _ => &[0; 16],
        };
        assert_eq!(&outcome.z[..16], register, "{allowance}");
        assert_eq!(outcome.za[16..], own.case.za[16..], "{allowance}");
        assert_eq!(outcome.za[..16] == *moved, *done == 0, "{allowance}");
    }
}
