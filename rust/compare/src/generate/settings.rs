//! The settings of a case.

use crate::case::Case;
use crate::pairs::Pair;
use second::execute::{Settings, VECTOR_LENGTHS};
use second::inputs::random::Random;

/// Vector lengths that are none: next to the right ones, powers of two
/// beyond the ends, and numbers whose low bytes look right.
pub const OTHER_LENGTHS: [u64; 17] = [
    0,
    1,
    8,
    15,
    17,
    24,
    48,
    127,
    255,
    257,
    512,
    1 << 32 | 16,
    1 << 32 | 64,
    1 << 32 | 256,
    1 << 40,
    1 << 63,
    u64::MAX,
];

/// Levels that are none: the first above the highest, and numbers whose low
/// bytes look right.
pub const OTHER_LEVELS: [u64; 10] = [
    4,
    5,
    255,
    256,
    259,
    1 << 16 | 1,
    1 << 32,
    1 << 32 | 3,
    1 << 63,
    u64::MAX,
];

/// Settings under which a word of level `level` is done. The stack check is
/// on or off, whatever the word, as only loads and stores may look at it.
pub fn set(random: &mut Random, case: &mut Case, level: u8) {
    let levels = 4 - usize::from(level);
    let pair = Pair::draw(random);
    let level = u64::from(level) + random.below(levels) as u64;
    set_to(random, case, pair, level);
}

/// Settings of this pair and this level.
pub fn set_to(random: &mut Random, case: &mut Case, pair: Pair, level: u64) {
    case.settings = Settings {
        vector_bytes: pair.vector_bytes,
        level,
        streaming: true,
        za_on: true,
        memory_address: 0,
        stack_check: random.chance(1, 2),
        largest_vector_bytes: pair.largest,
    };
}

/// Makes the vector length, the largest one or the level wrong, or a length
/// and the level. The level alone has the largest share: with it the case has
/// a line in the table, and there are many lines.
pub fn spoil(random: &mut Random, case: &mut Case) {
    let which = random.below(10);
    match which {
        0..=2 => spoil_length(random, case),
        3..=5 => spoil_largest(random, case),
        _ => (),
    }
    if ![0, 1, 3, 4].contains(&which) {
        case.settings.level = random.pick(&OTHER_LEVELS);
    }
}

/// Makes the vector length wrong, and often the largest one the same, so that
/// it is not below.
fn spoil_length(random: &mut Random, case: &mut Case) {
    case.settings.vector_bytes = other_length(random);
    if random.chance(1, 2) {
        case.settings.largest_vector_bytes = case.settings.vector_bytes;
    }
    resize(random, case);
}

/// Makes the largest vector length wrong: none of the five, or often one of
/// them that is below the vector length.
fn spoil_largest(random: &mut Random, case: &mut Case) {
    let own = case.settings.vector_bytes;
    let below = VECTOR_LENGTHS.iter().filter(|length| **length < own);
    let below: Vec<u64> = below.copied().collect();
    case.settings.largest_vector_bytes = if below.is_empty() || random.chance(1, 2) {
        other_length(random)
    } else {
        random.pick(&below)
    };
    resize(random, case);
}

fn other_length(random: &mut Random) -> u64 {
    if random.chance(1, 8) {
        // One of the five by chance is no matter: the case is then answered
        // otherwise.
        return random.bits() >> random.below(64);
    }
    random.pick(&OTHER_LENGTHS)
}

/// Often gives the buffers the lengths that the largest vector length fixes
/// or, where it is wrong, would fix, so that nothing else is wrong.
fn resize(random: &mut Random, case: &mut Case) {
    let length = case.settings.largest_vector_bytes as usize;
    if length <= 256 && random.chance(1, 2) {
        case.z.resize(32 * length, 0x5A);
        case.p.resize(16 * (length / 8), 0x5A);
        case.za.resize(length * length, 0x5A);
    }
}
