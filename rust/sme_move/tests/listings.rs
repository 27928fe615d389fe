//! Listings: where a run of one stops, and that it does what calls of its words one after another do.

#[path = "listings/random.rs"]
mod random;

use random::Random;
use sme_move::{execute, numbers, run_listing, Buffers, Machine, Refusal, Settings, Stopped};
use std::cell::Cell;

/// Moves vector register 0 to row 0 or 1 of the byte tile; stores row 0 at register 1 plus register 2, or at the stack
/// pointer; moves two vectors of the array; and is no instruction.
const MOVE: u32 = 0xC000_0000;
const MOVE_ON: u32 = 0xC000_0001;
const STORE: u32 = 0xE022_0020;
const STORE_ON_STACK: u32 = 0xE03F_03E0;
const MOVE_TWO: u32 = 0xC006_0800;
const NONE: u32 = 0;

/// Every one of these is above the number of words of a listing here.
const AMPLE: [u64; 4] = [1000, 1 << 32, 1 << 63, u64::MAX];

fn settings() -> Settings {
    let settings = Settings::new(16, 3).expect("these are allowed");
    let on = settings.with_streaming(true).with_za(true);
    on.with_memory_address(0x100)
}

/// With every element active and letters in vector register 0. Row 0 is stored 4 bytes behind memory's start.
fn machine() -> Machine {
    let mut machine = Machine::new(settings(), vec![b'.'; 24]).expect("nothing is wrong");
    machine.state.p.fill(0xFF);
    (machine.state.x[1], machine.state.x[2]) = (0x100, 4);
    machine.state.x[31] = 0x108;
    machine.vector_mut(0).copy_from_slice(b"sixteen letters!");
    machine
}

fn bytes_of(words: &[u32]) -> Vec<u8> {
    words.iter().flat_map(|word| word.to_le_bytes()).collect()
}

fn buffers(machine: &mut Machine) -> Buffers<'_> {
    Buffers {
        x: &machine.state.x,
        z: &mut machine.state.z,
        p: &machine.state.p,
        za: &mut machine.state.za,
        memory: &mut machine.memory,
    }
}

/// What a run is to be: a call for each word.
fn one_by_one(machine: &mut Machine, words: &[u32], allowance: u64) -> Result<usize, Stopped> {
    let allowed = words.len().min(allowance.try_into().unwrap_or(usize::MAX));
    for (done, word) in words[..allowed].iter().enumerate() {
        let answer = execute(machine.settings, *word, buffers(machine));
        answer.map_err(|refusal| Stopped { done, refusal })?;
    }
    Ok(allowed)
}

/// The number, and what comes with it, that a result has in the archive.
fn numbers_of(result: Result<usize, Stopped>) -> (u32, u64, u64, u64) {
    match result {
        Ok(done) => (0, 0, 0, done as u64),
        Err(Stopped { done, refusal: r }) => (r.number(), r.address(), r.element(), done as u64),
    }
}

/// What a listing comes to, by all functions that run one: they give and do the same.
#[track_caller]
fn run(machine: &mut Machine, listing: &[u8], allowance: u64) -> Result<usize, Stopped> {
    let settings = machine.settings;
    let [mut lent, mut state, mut numbered] = [(); 3].map(|()| machine.clone());
    let result = machine.run_listing(listing, allowance);
    let memory = &mut state.memory;
    let of_state = state
        .state
        .run_listing(settings, listing, allowance, memory);
    assert_eq!(of_state, result);
    let of_buffers = run_listing(settings, listing, allowance, buffers(&mut lent));
    assert_eq!(of_buffers, result);
    let of_numbers = numbers::run_listing(settings, listing, allowance, buffers(&mut numbered));
    assert_eq!(of_numbers, numbers_of(result));
    assert!(lent == *machine && state == *machine && numbered == *machine);
    result
}

fn stopped(done: usize, refusal: Refusal) -> Result<usize, Stopped> {
    Err(Stopped { done, refusal })
}

/// A change of a machine.
type Change = fn(&mut Machine);

/// Machines of other settings or lengths than they should have, and how each is refused.
fn wrong_machines() -> Vec<(Machine, Refusal)> {
    let spoil: [(Change, Refusal); 9] = [
        (|m| m.settings.vector_bytes = 48, Refusal::BadSettings),
        (|m| m.settings.level = 4, Refusal::BadSettings),
        (
            |m| m.settings.largest_vector_bytes = 8,
            Refusal::BadSettings,
        ),
        (
            |m| m.settings.largest_vector_bytes = 32,
            Refusal::BadLengths,
        ),
        (|m| m.state.x.push(0), Refusal::BadLengths),
        (|m| m.state.z.truncate(511), Refusal::BadLengths),
        (|m| m.state.p.clear(), Refusal::BadLengths),
        (|m| m.state.za.push(0), Refusal::BadLengths),
        (
            |m| m.settings.memory_address = u64::MAX - 22,
            Refusal::BadLengths,
        ),
    ];
    let spoilt = |(spoil, refusal): (Change, Refusal)| {
        let mut machine = machine();
        spoil(&mut machine);
        (machine, refusal)
    };
    spoil.into_iter().map(spoilt).collect()
}

#[test]
fn a_listing_is_run_to_its_end() {
    let mut machine = machine();
    let listing = bytes_of(&[MOVE, STORE, MOVE_ON, MOVE_TWO]);
    assert_eq!(run(&mut machine, &listing, u64::MAX), Ok(4));
    assert_eq!(machine.memory, b"....sixteen letters!....");
    assert_eq!(machine.array_vector(1), b"sixteen letters!");
}

/// A word that is refused, by which answer, and what is changed for that.
#[test]
fn each_answer_of_a_word_stops_a_listing() {
    let outside = Refusal::OutsideMemory {
        address: 0x118,
        element: 15,
    };
    for (word, change, refusal) in [
        (NONE, (|_| ()) as Change, Refusal::Undecodable),
        (STORE_ON_STACK, |_| (), Refusal::StackMisaligned),
        (STORE, |m| m.state.x[2] = 9, outside),
        (MOVE_TWO, |m| m.settings.level = 1, Refusal::Undecodable),
    ] {
        for done in 0..4 {
            let mut words = [MOVE, MOVE_ON, MOVE, MOVE_ON, STORE];
            words[done] = word;
            let mut machine = machine();
            change(&mut machine);
            let mut expected = machine.clone();
            for word in &words[..done] {
                assert_eq!(expected.execute(*word), Ok(()));
            }
            let result = run(&mut machine, &bytes_of(&words), u64::MAX);
            assert_eq!(result, stopped(done, refusal));
            assert_eq!(machine, expected);
        }
    }
}

/// Where a switch is off the first word that decodes is refused; one before it that does not is so by 3.
#[test]
fn switches_that_are_off_stop_a_listing() {
    for (streaming, za, refusal) in [
        (false, false, Refusal::StreamingOff),
        (false, true, Refusal::StreamingOff),
        (true, false, Refusal::ZaOff),
    ] {
        let mut machine = machine();
        machine.settings = machine.settings.with_streaming(streaming).with_za(za);
        let before = machine.clone();
        for (words, refusal) in [
            ([MOVE, STORE], refusal),
            ([STORE_ON_STACK, NONE], refusal),
            ([NONE, MOVE], Refusal::Undecodable),
        ] {
            let result = run(&mut machine, &bytes_of(&words), u64::MAX);
            assert_eq!(result, stopped(0, refusal));
            assert_eq!(machine, before);
        }
        assert_eq!(run(&mut machine, &[], u64::MAX), Ok(0));
        assert_eq!(run(&mut machine, &bytes_of(&[MOVE]), 0), Ok(0));
    }
}

#[test]
fn the_allowance_ends_a_run() {
    let good = [MOVE, MOVE_ON, STORE, MOVE];
    let refused = [MOVE, STORE, NONE, MOVE];
    for allowance in (0..8).chain(AMPLE) {
        let [mut one, mut other] = [(); 2].map(|()| machine());
        let done = allowance.min(4) as usize;
        assert_eq!(run(&mut one, &bytes_of(&good), allowance), Ok(done));
        assert_eq!(one_by_one(&mut other, &good, allowance), Ok(done));
        assert_eq!(one, other);
        // Up to the word before the refused one it is the allowance that ends the run.
        let expected = match allowance {
            0..=2 => Ok(allowance as usize),
            _ => stopped(2, Refusal::Undecodable),
        };
        assert_eq!(run(&mut one, &bytes_of(&refused), allowance), expected);
    }
}

/// Also where there is nothing to run, and before the length of the listing.
#[test]
fn settings_and_lengths_are_checked_first() {
    let listing = bytes_of(&[MOVE, NONE]);
    for (mut machine, refusal) in wrong_machines() {
        let before = machine.clone();
        for length in 0..=listing.len() {
            for allowance in [0, 1, 2, u64::MAX] {
                let result = run(&mut machine, &listing[..length], allowance);
                assert_eq!(result, stopped(0, refusal));
            }
        }
        assert_eq!(machine, before);
    }
    // Settings come before lengths.
    let mut both = machine();
    both.settings.level = 4;
    both.state.z.pop();
    assert_eq!(run(&mut both, &[], 0), stopped(0, Refusal::BadSettings));
}

#[test]
fn nothing_to_run_is_done() {
    let mut machine = machine();
    let before = machine.clone();
    for allowance in [0, 1].into_iter().chain(AMPLE) {
        assert_eq!(run(&mut machine, &[], allowance), Ok(0));
    }
    for word in [MOVE, STORE, STORE_ON_STACK, NONE] {
        assert_eq!(run(&mut machine, &bytes_of(&[word, word]), 0), Ok(0));
    }
    assert_eq!(machine, before);
}

/// Whatever the allowance, and whatever the words are that are whole.
#[test]
fn a_listing_is_made_of_whole_words() {
    for words in [[MOVE; 8], [NONE; 8]] {
        let listing = bytes_of(&words);
        for length in (0..listing.len()).filter(|length| length % 4 != 0) {
            for allowance in [0, 1, 2].into_iter().chain(AMPLE) {
                for (streaming, za) in [(true, true), (true, false), (false, false)] {
                    let mut machine = machine();
                    machine.settings = machine.settings.with_streaming(streaming).with_za(za);
                    let before = machine.clone();
                    let result = run(&mut machine, &listing[..length], allowance);
                    assert_eq!(result, stopped(0, Refusal::BadListing));
                    assert_eq!(machine, before);
                }
            }
        }
    }
}

/// How a stop is told: by the word's number, unless no word is to blame.
#[test]
fn a_stop_is_told() {
    for (done, refusal, told) in [
        (
            2,
            Refusal::Undecodable,
            "word 3: the word is no instruction of this level",
        ),
        (0, Refusal::ZaOff, "word 1: the array is off"),
        (
            0,
            Refusal::BadSettings,
            "a vector length or the level is not allowed",
        ),
        (
            0,
            Refusal::BadLengths,
            "a buffer has the wrong length, or memory ends above 2^64",
        ),
        (
            0,
            Refusal::BadListing,
            "the listing is not made of whole words",
        ),
    ] {
        let stopped = Stopped { done, refusal };
        assert_eq!(stopped.to_string(), told);
        assert_eq!(Refusal::from(stopped), refusal);
    }
}

/// Count, answer, address, element and every byte are those of single calls, also of the bytes between vectors, and
/// wherever the listing begins.
#[test]
fn a_listing_is_equal_to_single_calls() {
    let mut random = Random(1);
    // How often runs ended by each answer, behind a word that was done.
    let mut ends = [0; 8];
    for _ in 0..4000 {
        let (mut machine, words) = (random.machine(), random.words());
        let mut single = machine.clone();
        let allowance = random.pick(&[0, 1, 2, 7, 40, 60, 61, u64::MAX]);
        let begin = random.below(8) as usize;
        let listing = [vec![0xC0; begin], bytes_of(&words)].concat();
        let result = run(&mut machine, &listing[begin..], allowance);
        assert_eq!(result, one_by_one(&mut single, &words, allowance));
        assert!(machine == single, "{words:08X?}, at most {allowance}");
        let (number, .., done) = numbers_of(result);
        ends[number as usize] += usize::from(done > 0);
    }
    // No other can come behind a word that was done: settings, lengths and switches stay during a run.
    let often = ends.map(|count| count > 50);
    let possible = [0, 1, 2, 3, 4, 5, 6, 7].map(|number| [0, 3, 6, 7].contains(&number));
    assert_eq!(often, possible, "{ends:?}");
}

/// Going on behind each refused word comes to executing all words, whatever each is answered.
#[test]
fn a_host_goes_on_behind_refused_words() {
    let mut random = Random(2);
    let mut most = 0;
    for _ in 0..500 {
        let (mut machine, words) = (random.machine(), random.words());
        let mut single = machine.clone();
        let answers: Vec<_> = words.iter().map(|word| single.execute(*word)).collect();
        let listing = bytes_of(&words);
        let (mut rest, mut found) = (&listing[..], Vec::new());
        while let Err(stopped) = machine.run_listing(rest, u64::MAX) {
            found.extend(vec![Ok(()); stopped.done]);
            found.push(Err(stopped.refusal));
            rest = &rest[4 * (stopped.done + 1)..];
        }
        found.extend(vec![Ok(()); rest.len() / 4]);
        assert_eq!(found, answers);
        assert!(machine == single, "{words:08X?}");
        most = most.max(answers.iter().filter(|answer| answer.is_err()).count());
    }
    assert!(most > 20);
}

/// Words come to the same as their listing, and all are taken before the first is run.
#[test]
fn words_are_gathered_to_a_listing() {
    let mut random = Random(3);
    for _ in 0..500 {
        let (mut machine, words) = (random.machine(), random.words());
        let mut listed = machine.clone();
        let taken = Cell::new(0);
        let result = machine.run(
            words
                .iter()
                .inspect(|_| taken.set(taken.get() + 1))
                .copied(),
        );
        assert_eq!(result, run(&mut listed, &bytes_of(&words), u64::MAX));
        assert!(machine == listed && taken.get() == words.len());
    }
    for (mut machine, refusal) in wrong_machines() {
        assert_eq!(machine.run([]), stopped(0, refusal));
        assert_eq!(machine.run([MOVE]), stopped(0, refusal));
    }
}
