//! The decode test inputs: words with levels.

use super::examples;
use super::random::Random;
use super::rows::{Row, PATTERNS, ROWS};
use super::unique::Unique;

/// All levels that there are, the first that is not, and the highest byte.
const LEVELS: [u8; 6] = [0, 1, 2, 3, 4, 255];

/// Words close to the table that are other instructions or unallocated.
/// The comments name Arm's instruction where there is one.
pub const NEIGHBOURS: [u32; 108] = [
    // Vectors to tile and vectors to array, the other direction.
    0xC004_0000,
    0xC004_0400,
    0xC004_0800,
    0xC004_0C00,
    0xC005_0000,
    // Q bit with a size that does not go with it.
    0xC001_0000,
    0xC041_0000,
    0xC081_0000,
    0xC003_0000,
    0xC043_0000,
    0xC083_0000,
    0xC003_0200,
    0xC043_0200,
    0xC083_0200,
    0xC003_1C00,
    0xC043_FDFF,
    0xC083_FDFF,
    // Tile to vector with zeroing (bit 9 is 1) and a predicate.
    0xC002_0600,
    0xC002_0A00,
    0xC002_1200,
    0xC002_1E00,
    0xC042_0600,
    0xC082_0A00,
    0xC0C2_1200,
    0xC0C3_1E00,
    0xC0C3_FFFF,
    // Tile to vector with one of the bits 21:19 set.
    0xC00A_0000,
    0xC012_0000,
    0xC022_0000,
    // Tile to several vectors, with and without zeroing.
    0xC006_0000,
    0xC006_0200,
    0xC006_0400,
    0xC006_0600,
    0xC046_0000,
    // Array forms with low bits of the first register set: one for two
    // registers, two for four.
    0xC006_0801,
    0xC006_0A01,
    0xC006_0C01,
    0xC006_0C02,
    0xC006_0C03,
    0xC006_0E01,
    0xC006_0E02,
    0xC006_0E03,
    // Array forms with fixed bits changed.
    0xC006_8800,
    0xC006_8A00,
    0xC006_8C00,
    0xC006_8E00,
    0xC006_1800,
    0xC006_1A00,
    0xC006_1C00,
    0xC006_1E00,
    0xC006_0900,
    0xC006_0B00,
    0xC006_0D00,
    0xC006_0F00,
    0xC007_0800,
    0xC007_0A00,
    0xC007_0C00,
    0xC007_0E00,
    0xC046_0800,
    0xC046_0C00,
    0xC086_0A00,
    0xC086_0E00,
    0xC0C6_0C00,
    // Zeroing, additions to a tile, an outer product, a load of vectors.
    0xC008_0000,
    0xC048_0001,
    0xC090_0000,
    0xC0D0_0000,
    0x8080_0000,
    0xA000_0000,
    // Bit 4 set in a move to a tile.
    0xC0C1_0010,
    0xC0FF_FFFF,
    // Loads and stores of array vectors, and other loads and stores whose Q
    // bit has a size that does not go with it.
    0xE100_0000,
    0xE120_0000,
    0xE140_0000,
    0xE160_0000,
    0xE180_0000,
    0xE1A0_0000,
    0xE11F_FFEF,
    0xE13F_FFEF,
    0xE15F_FFEF,
    0xE17F_FFEF,
    0xE19F_FFEF,
    0xE1BF_FFEF,
    // Bit 4 set in a load or a store of each size.
    0xE000_0010,
    0xE020_0010,
    0xE040_0010,
    0xE060_0010,
    0xE080_0010,
    0xE0A0_0010,
    0xE0C0_0010,
    0xE0E0_0010,
    0xE1C0_0010,
    0xE1E0_0010,
    0xE01F_FFFF,
    0xE03F_FFFF,
    0xE0DF_FFFF,
    0xE1DF_FFFF,
    0xE1FF_FFFF,
    // The top bits of loads and stores changed.
    0x6000_0000,
    0x6020_0000,
    0xA1C0_0000,
    0xE200_0000,
    0xE220_0000,
    0xE3C0_0000,
    0xE5E0_0000,
    0xF000_0000,
    // The ends of all words.
    0x0000_0000,
    0xFFFF_FFFF,
];

/// Fixed seed, so that every run gives the same list.
const SEED: u64 = 0x5EC0_0001;

type Words = Unique<(u32, u8)>;

/// The whole list, without doubles.
pub fn list() -> Vec<(u32, u8)> {
    let mut words = Words::default();
    add_examples(&mut words);
    add_at_all_levels(&mut words, &NEIGHBOURS);
    for row in &ROWS {
        add_corners(&mut words, row);
        add_flips(&mut words, row);
        add_sweeps(&mut words, row);
    }
    let mut random = Random::new(SEED);
    add_random_words(&mut words, &mut random);
    add_random_members(&mut words, &mut random);
    words.into_items()
}

/// The words of section 7 of document 01, and those for the added rows.
fn add_examples(words: &mut Words) {
    let decoding = examples::DECODING.map(|(word, _, _)| word);
    add_at_all_levels(words, &decoding);
    add_at_all_levels(words, &examples::UNDECODABLE);
}

fn add_at_all_levels(words: &mut Words, list: &[u32]) {
    for &word in list {
        for level in LEVELS {
            words.add((word, level));
        }
    }
}

/// Every combination of fields at their ends, at every level.
fn add_corners(words: &mut Words, row: &Row) {
    for bits in row.corners() {
        add_at_all_levels(words, &[row.word(&bits)]);
    }
}

/// Each fixed bit flipped, from the base and from the highest fields. The
/// lower levels are there because a flip may lead to a row of another
/// level.
fn add_flips(words: &mut Words, row: &Row) {
    for bits in [row.lowest(), row.highest()] {
        for place in 0..32 {
            let flip = 1 << place & row.fixed();
            if flip != 0 {
                for level in [3, 2, 1] {
                    words.add((row.word(&bits) ^ flip, level));
                }
            }
        }
    }
}

/// Every value of each field, at the row's level, one below and the
/// highest.
fn add_sweeps(words: &mut Words, row: &Row) {
    for pattern in PATTERNS {
        for bits in row.sweeps(&row.mixed(pattern)) {
            for level in [row.level - 1, row.level, 3] {
                words.add((row.word(&bits), level));
            }
        }
    }
}

/// Words without any choice; hardly one of them decodes.
fn add_random_words(words: &mut Words, random: &mut Random) {
    for _ in 0..2000 {
        let word = random.word();
        words.add((word, random.pick(&LEVELS)));
    }
}

/// Words of the rows, every third with one bit flipped. Half of them are
/// at the highest level, where all rows decode.
fn add_random_members(words: &mut Words, random: &mut Random) {
    for turn in 0..230 * ROWS.len() {
        let row = &ROWS[random.below(ROWS.len())];
        let mut word = row.word(&row.random(random));
        if turn % 3 == 0 {
            word ^= 1 << random.below(32);
        }
        let level = if random.below(2) == 0 {
            3
        } else {
            random.pick(&LEVELS)
        };
        words.add((word, level));
    }
}
