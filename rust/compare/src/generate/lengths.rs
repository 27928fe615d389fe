//! Wrong lengths of the buffers (document 01, section 6, answer 2).

use super::memory;
use crate::beyond::Beyond;
use crate::case::Case;
use second::execute::VECTOR_LENGTHS;
use second::inputs::random::Random;

/// Makes one length wrong, or two, or those that the vector length would fix
/// where the largest one is longer.
pub fn spoil(random: &mut Random, case: &mut Case) {
    if Beyond::of(&case.settings).is_some() && random.chance(1, 4) {
        return fit_to_vector_length(random, case);
    }
    let turns = 1 + random.below(4) / 3;
    for _ in 0..turns {
        let other = random.pick(&VECTOR_LENGTHS) as usize;
        match random.below(5) {
            0 => change(random, &mut case.x, 2 * other),
            1 => change(random, &mut case.z, 32 * other),
            2 => change(random, &mut case.p, 2 * other),
            3 => change(random, &mut case.za, other * other),
            _ => memory::spoil(random, case),
        }
    }
}

/// Gives Z, P or ZA, or all three, the lengths of buffers without bytes
/// beyond the vector length.
fn fit_to_vector_length(random: &mut Random, case: &mut Case) {
    let length = case.settings.vector_bytes as usize;
    let (all, one) = (random.chance(1, 2), random.below(3));
    let lengths = [
        (&mut case.z, 32 * length),
        (&mut case.p, 2 * length),
        (&mut case.za, length * length),
    ];
    for (number, (buffer, length)) in lengths.into_iter().enumerate() {
        if all || number == one {
            buffer.truncate(length);
        }
    }
}

/// One too short, one too long, empty, or the length `other`, which is that
/// of a vector length that the case may not have.
fn change<T: Copy + Default>(random: &mut Random, buffer: &mut Vec<T>, other: usize) {
    let right = buffer.len();
    let length = match random.below(7) {
        0 | 1 => right.saturating_sub(1),
        2 | 3 => right + 1,
        4 | 5 => 0,
        _ => other,
    };
    buffer.resize(length, T::default());
}
