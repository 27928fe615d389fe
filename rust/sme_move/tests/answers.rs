//! Refusals: the number, the words, and the address and element of each, and those that calls give.

use sme_move::{decode, encode, numbers, Buffers, HeldTiles, Refusal, Settings, State, Tile};
use sme_move::{Direction, ElementSize, Operation};

/// Every refusal but the one that carries an address and an element, with its number and its words.
const WITHOUT_ADDRESS: [(Refusal, u32, &str); 10] = [
    (
        Refusal::BadSettings,
        1,
        "a vector length or the level is not allowed",
    ),
    (
        Refusal::BadLengths,
        2,
        "a buffer has the wrong length, or memory ends above 2^64",
    ),
    (
        Refusal::Undecodable,
        3,
        "the word is no instruction of this level",
    ),
    (Refusal::StreamingOff, 4, "streaming mode is off"),
    (Refusal::ZaOff, 5, "the array is off"),
    (
        Refusal::StackMisaligned,
        6,
        "the stack pointer is no multiple of 16",
    ),
    (
        Refusal::OutOfRange,
        8,
        "no word encodes this operation, or no element has so many bytes",
    ),
    (
        Refusal::BadListing,
        9,
        "the listing is not made of whole words",
    ),
    (Refusal::NoFreeTile, 13, "no tile of this size is free"),
    (
        Refusal::BadHeld,
        16,
        "a held tile does not exist, two share a byte, or the tile is not held",
    ),
];

/// Moves vector register 0 to a row of the byte tile, and stores row 0 of it by registers 1 and 2, or by the stack
/// pointer alone.
const MOVE: u32 = 0xC000_0000;
const STORE: u32 = 0xE022_0020;
const STORE_ON_STACK: u32 = 0xE03F_03E0;

/// The number of a refusal, and what comes with it.
fn carried(refusal: Refusal) -> (u32, u64, u64) {
    (refusal.number(), refusal.address(), refusal.element())
}

#[test]
fn a_refusal_has_its_number_and_words_and_neither_address_nor_element() {
    for (refusal, number, words) in WITHOUT_ADDRESS {
        assert_eq!(refusal.number(), number);
        assert_eq!((refusal.address(), refusal.element()), (0, 0));
        assert_eq!(refusal.to_string(), words);
        for (address, element) in [(0, 0), (1, 0), (0, 1), (u64::MAX, 255)] {
            let of_number = Refusal::of_number(number, address, element);
            assert_eq!(of_number, Some(refusal));
        }
    }
}

/// 0 is 'done', and the others were never given a meaning here.
#[test]
fn other_numbers_are_no_refusals() {
    let given = WITHOUT_ADDRESS.map(|(_, number, _)| number);
    let others = (0..300).chain([1 << 16, (1 << 16) + 1, u32::MAX]);
    for number in others.filter(|number| *number != 7 && !given.contains(number)) {
        assert_eq!(Refusal::of_number(number, 1, 1), None);
    }
}

#[test]
fn outside_memory_has_its_address_and_element() {
    for (address, element, words) in [
        (0, 0, "0000000000000000 of element 0"),
        (1, 0, "0000000000000001 of element 0"),
        (0, 1, "0000000000000000 of element 1"),
        (0x1_0000_002A, 15, "000000010000002A of element 15"),
        (
            0xFEDC_BA98_7654_3210,
            255,
            "FEDCBA9876543210 of element 255",
        ),
        (
            u64::MAX,
            u64::MAX,
            "FFFFFFFFFFFFFFFF of element 18446744073709551615",
        ),
    ] {
        let refusal = Refusal::OutsideMemory { address, element };
        assert_eq!(carried(refusal), (7, address, element));
        assert_eq!(Refusal::of_number(7, address, element), Some(refusal));
        let words = format!("address {words} is not in memory");
        assert_eq!(refusal.to_string(), words);
    }
}

fn settings() -> Settings {
    let settings = Settings::new(16, 3).expect("these are allowed");
    settings.with_streaming(true).with_za(true)
}

/// What a word is answered, every element being active, registers 1 and 31 at this address and register 2 at 4: by the
/// binding, and as the archive's numbers.
fn answers_of(
    settings: Settings,
    word: u32,
    address: u64,
) -> (Result<(), Refusal>, (u32, u64, u64)) {
    let mut state = State::new(self::settings()).expect("these are allowed");
    state.p.fill(0xFF);
    (state.x[1], state.x[2], state.x[31]) = (address, 4, address);
    let answer = state.execute(settings, word, &mut [0; 64]);
    let buffers = Buffers {
        x: &state.x,
        z: &mut state.z,
        p: &state.p,
        za: &mut state.za,
        memory: &mut [0; 64],
    };
    (answer, numbers::execute(settings, word, buffers))
}

/// Each answer that executing a word can give, from the archive, which writes address and element with every one.
#[test]
fn executing_gives_number_address_and_element() {
    let mut bad = settings();
    bad.level = 4;
    let off = settings().with_streaming(false).with_za(false);
    let high = settings().with_memory_address(u64::MAX - 62);
    let other = Settings::new(32, 3).expect("these are allowed");
    let wider = Settings::within(16, 32, 3).expect("these are allowed");
    let mut shorter = settings();
    shorter.largest_vector_bytes = 8;
    for (settings, word, start, expected) in [
        (settings(), MOVE, 0, (0, 0, 0)),
        (settings(), STORE, 44, (0, 0, 0)),
        (bad, MOVE, 0, (1, 0, 0)),
        (shorter, MOVE, 0, (1, 0, 0)),
        (high, MOVE, 0, (2, 0, 0)),
        (other, MOVE, 0, (2, 0, 0)),
        (wider, MOVE, 0, (2, 0, 0)),
        (settings(), 0xC000_0010, 0, (3, 0, 0)),
        (off, MOVE, 0, (4, 0, 0)),
        (off.with_streaming(true), STORE, 45, (5, 0, 0)),
        (settings(), STORE_ON_STACK, 56, (6, 0, 0)),
        (settings(), STORE_ON_STACK, 64, (7, 64, 0)),
        (settings(), STORE, 45, (7, 64, 15)),
        (settings(), STORE, u64::MAX - 7, (7, u64::MAX - 3, 0)),
    ] {
        let (answer, numbers) = answers_of(settings, word, start);
        assert_eq!(answer.err().map_or((0, 0, 0), carried), expected);
        assert_eq!(numbers, expected);
    }
}

/// Those of the other calls.
#[test]
fn other_calls_give_numbers_alone() {
    let wide = Operation::MovazFromTile {
        size: ElementSize::Bits8,
        direction: Direction::Horizontal,
        tile: 1,
        offset: 0,
        index: 12,
        vector: 0,
    };
    let mut held = HeldTiles::new();
    held.take(1).expect("it is free");
    let tile = Tile {
        element_bytes: 2,
        number: 0,
    };
    for (refused, number) in [
        (Settings::new(48, 3).err(), 1),
        (Settings::within(32, 16, 3).err(), 1),
        (decode(MOVE, 4).err(), 1),
        (decode(MOVE, 0).err(), 3),
        (encode(wide).err(), 8),
        (held.take(3).err(), 8),
        (held.take(2).err(), 13),
        (held.give_up(tile).err(), 16),
    ] {
        let refusal = refused.expect("it is refused");
        assert_eq!(carried(refusal), (number, 0, 0));
    }
}
