//! Settings as a record: each item changed from every state of the others, and what new ones hold.

use sme_move::{Refusal, Settings};

const VECTOR_LENGTHS: [u64; 5] = [16, 32, 64, 128, 256];

/// Settings with these switches, and no other item as new settings have it.
fn from([streaming, za, stack_check]: [bool; 3]) -> Settings {
    let mut settings = Settings::within(64, 128, 2).expect("these are allowed");
    settings.streaming = streaming;
    settings.za = za;
    settings.memory_address = 0xFEDC_BA98_7654_3210;
    settings.stack_check = stack_check;
    settings
}

#[test]
fn one_item_is_changed_and_the_others_stay() {
    for switches in 0..8 {
        let [streaming, za, check] = [0, 1, 2].map(|bit| switches >> bit & 1 == 1);
        let before = from([streaming, za, check]);
        for on in [false, true] {
            assert_eq!(before.with_streaming(on), from([on, za, check]));
            assert_eq!(before.with_za(on), from([streaming, on, check]));
            assert_eq!(before.with_stack_check(on), from([streaming, za, on]));
        }
        for address in [0, 1, 2, 64, 77, 1 << 32, u64::MAX] {
            let mut wanted = before;
            wanted.memory_address = address;
            assert_eq!(before.with_memory_address(address), wanted);
        }
    }
}

/// Numbers that are not allowed stay as they are too.
#[test]
fn numbers_that_are_not_allowed_stay() {
    let mut before = from([true, false, true]);
    (before.vector_bytes, before.level) = (u64::MAX, 9);
    before.largest_vector_bytes = 3;
    for changed in [
        before.with_streaming(false),
        before.with_za(true),
        before.with_memory_address(3),
        before.with_stack_check(false),
    ] {
        assert_eq!((changed.vector_bytes, changed.level), (u64::MAX, 9));
        assert_eq!(changed.largest_vector_bytes, 3);
        assert_eq!(changed.check(), Err(Refusal::BadSettings));
    }
}

#[test]
fn new_settings_are_off_and_at_address_0_and_have_the_stack_check_on() {
    for bytes in VECTOR_LENGTHS {
        for level in 0..=3 {
            let new = Settings::new(bytes, level).expect("these are allowed");
            assert_eq!((new.vector_bytes, new.level), (bytes, level));
            assert_eq!((new.streaming, new.za), (false, false));
            assert_eq!((new.memory_address, new.stack_check), (0, true));
            assert_eq!(new.largest_vector_bytes, bytes);
        }
        for level in [4, 256, 1 << 32, u64::MAX] {
            assert_eq!(Settings::new(bytes, level), Err(Refusal::BadSettings));
        }
    }
    for bytes in [0, 8, 15, 17, 48, 512, (1 << 32) + 16, u64::MAX] {
        assert_eq!(Settings::new(bytes, 3), Err(Refusal::BadSettings));
    }
    assert_eq!(Settings::new(16, 0), Ok(Settings::REFUSED));
}

/// Numbers that are no vector length.
const OTHERS: [u64; 9] = [0, 8, 15, 17, 48, 255, 512, (1 << 32) + 64, u64::MAX];

/// The largest vector length is one of the five too, and not below the other; all else is as in new settings.
#[test]
fn buffers_may_be_for_longer_vectors_and_not_for_shorter_ones() {
    for level in [0, 3, 4] {
        for bytes in VECTOR_LENGTHS {
            for largest in VECTOR_LENGTHS {
                let made = Settings::within(bytes, largest, level);
                assert_eq!(made.is_ok(), bytes <= largest && level < 4);
                if let Ok(made) = made {
                    let mut wanted = Settings::new(bytes, level).expect("these are allowed");
                    wanted.largest_vector_bytes = largest;
                    assert_eq!(made, wanted);
                }
            }
            for other in OTHERS {
                for (bytes, largest) in [(bytes, other), (other, bytes), (other, other)] {
                    let made = Settings::within(bytes, largest, level);
                    assert_eq!(made, Err(Refusal::BadSettings));
                }
            }
        }
    }
    let refused = Settings::REFUSED;
    let lengths = (refused.vector_bytes, refused.largest_vector_bytes);
    assert_eq!((lengths, refused.level), ((16, 16), 0));
}

/// The lengths of the buffers go by the largest vector length. Both lengths are checked for them, and not the level.
#[test]
fn buffers_are_as_long_as_the_largest_vector_length_says() {
    for (bytes, largest) in pairs() {
        let mut settings = Settings::within(bytes, largest, 3).expect("these are allowed");
        settings.level = 77;
        let lengths = settings.lengths().expect("the level does not count");
        let fixed = [32, 32 * largest, 2 * largest, largest * largest].map(|n| n as usize);
        assert_eq!([lengths.x, lengths.z, lengths.p, lengths.za], fixed);
        for (bytes, largest) in [(largest * 2, largest), (bytes, bytes / 2), (bytes, 0)] {
            (settings.vector_bytes, settings.largest_vector_bytes) = (bytes, largest);
            assert_eq!(settings.lengths(), Err(Refusal::BadSettings));
        }
    }
}

/// Every vector length with every one that is not below it.
fn pairs() -> impl Iterator<Item = (u64, u64)> {
    let with = |bytes| VECTOR_LENGTHS.map(|largest| (bytes, largest));
    let all = VECTOR_LENGTHS.into_iter().flat_map(with);
    all.filter(|(bytes, largest)| bytes <= largest)
}

/// Settings are equal if every item is: otherwise the tests above would show little.
#[test]
fn each_item_counts() {
    let own = from([true, false, true]);
    let mut longer = own;
    longer.vector_bytes = 128;
    let mut higher = own;
    higher.level = 3;
    let mut larger = own;
    larger.largest_vector_bytes = 256;
    assert_eq!(own, from([true, false, true]));
    for other in [
        longer,
        higher,
        larger,
        own.with_streaming(false),
        own.with_za(true),
        own.with_memory_address(0),
        own.with_stack_check(false),
    ] {
        assert_ne!(own, other);
    }
}

/// An older archive does not link; another one than this package is written for would be a mistake of this repository.
#[test]
fn the_archive_has_the_version_of_the_package() {
    assert_eq!(sme_move::numbers::version(), sme_move::numbers::VERSION);
    assert_eq!(sme_move::numbers::VERSION, 8);
    assert_eq!(
        sme_move::numbers::listing_version(),
        sme_move::numbers::LISTING_VERSION
    );
    assert_eq!(sme_move::numbers::LISTING_VERSION, 9);
}
