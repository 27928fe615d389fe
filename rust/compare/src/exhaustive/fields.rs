//! Eleven numbers that are an operation's or nearly so: each pair of them
//! replaced by all values, and random ones.

use super::blocks::{Blocks, Draws, Sum, Workers};
use super::codec::{Codec, Numbers, Programs};
use super::trip;
use second::flat::LENGTH;
use second::inputs::random::Random;
use second::inputs::rows::{PATTERNS, ROWS};

/// Random combinations in a block: about as much work as a base.
const BLOCK: u64 = 1 << 19;

/// What was compared.
#[derive(Debug, Default, PartialEq, Eq)]
pub struct Fields {
    pub combinations: u64,
    /// How many of them a word encodes.
    pub encodable: u64,
}

impl Sum for Fields {
    fn merge(&mut self, other: Fields) {
        self.combinations += other.combinations;
        self.encodable += other.encodable;
    }
}

/// Operations of each kind, size and direction: all fields low or high in
/// every combination, and all neither low nor high.
pub fn bases() -> Vec<Numbers> {
    let mut bases = Vec::new();
    for row in &ROWS {
        let mixed = PATTERNS.map(|pattern| row.mixed(pattern));
        let bits = row.corners().into_iter().chain(mixed);
        bases.extend(bits.map(|bits| row.numbers(&bits)));
    }
    bases
}

/// Compares what both programs make of the neighbours of `bases`, and of
/// random combinations.
pub fn compare<A: Codec, S: Codec>(
    programs: &Programs<A, S>,
    bases: &[Numbers],
    draws: Draws,
    workers: &Workers,
) -> Result<Fields, String> {
    let drawn = Blocks {
        count: draws.count,
        size: BLOCK,
    };
    let systematic = bases.len() as u64;
    let all = systematic + drawn.number();
    workers.run("fields", all, |block, sum: &mut Fields| {
        if block < systematic {
            return compare_pairs(programs, bases[block as usize], sum);
        }
        let block = block - systematic;
        let mut random = Random::new(draws.block_seed(block));
        for _ in drawn.range(block) {
            compare_one(programs, &draw(&mut random), sum)?;
        }
        Ok(())
    })
}

/// A base with each pair of its numbers replaced by all pairs of values,
/// among them those that change only one number.
fn compare_pairs<A: Codec, S: Codec>(
    programs: &Programs<A, S>,
    base: Numbers,
    sum: &mut Fields,
) -> Result<(), String> {
    for one in 0..LENGTH {
        for other in one + 1..LENGTH {
            for values in 0..=u16::MAX {
                let mut fields = base;
                [fields[one], fields[other]] = values.to_le_bytes();
                compare_one(programs, &fields, sum)?;
            }
        }
    }
    Ok(())
}

/// One in four is any bytes. The others are an operation's numbers, some of
/// them replaced by any byte or by what another operation has there.
fn draw(random: &mut Random) -> Numbers {
    let mut fields = draw_operation(random);
    if random.chance(1, 4) {
        random.fill(&mut fields);
        return fields;
    }
    let other = draw_operation(random);
    for _ in 0..random.below(5) {
        let place = random.below(LENGTH);
        fields[place] = if random.chance(1, 2) {
            random.byte()
        } else {
            other[place]
        };
    }
    fields
}

fn draw_operation(random: &mut Random) -> Numbers {
    let row = &ROWS[random.below(ROWS.len())];
    row.numbers(&row.random(random))
}

fn compare_one<A: Codec, S: Codec>(
    programs: &Programs<A, S>,
    fields: &Numbers,
    sum: &mut Fields,
) -> Result<(), String> {
    let archive = trip::encode(&programs.archive, fields);
    let second = trip::encode(&programs.second, fields);
    if archive != second || !archive.right(fields) {
        return Err(trip::difference(
            &format!("numbers {}", trip::numbers(fields)),
            &archive.told(),
            &second.told(),
        ));
    }
    sum.combinations += 1;
    sum.encodable += u64::from(archive.answer == 0);
    Ok(())
}
