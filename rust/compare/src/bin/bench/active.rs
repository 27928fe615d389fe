//! Which elements are active, and the predicate bits that say so.

use second::inputs::random::Random;

/// Which elements are active. They are counted by element, so that their part
/// is the same for every size.
#[derive(Clone, Copy, Debug, PartialEq, Eq)]
pub enum Active {
    All,
    /// Every second.
    Alternating,
    /// Every eighth, which is the first alone where there are no more than
    /// eight.
    Sparse,
    None,
    FirstHalf,
    LastHalf,
    /// The last alone: a search for an active element finds it last.
    Last,
    /// None, although every bit is set that no element goes by: a search that
    /// passes over empty predicate bytes finds none to pass over. Elements of
    /// 1 byte leave no such bit.
    Stray,
    /// The first 100 of 256, rounded down, but one at least.
    Prefix,
    /// Predicate bytes of which all elements are active, and bytes of which
    /// none is, in turn. An element that is larger than what goes by one byte
    /// counts as a byte.
    WholeAndEmpty,
    /// The same, but with every second element active instead of none.
    WholeAndHalf,
    /// Each or not by chance, the same in every run.
    Random,
}

/// What the random ones are drawn from.
const SEED: u64 = 3;

/// Those under which every operation with a predicate is timed.
pub const USUAL: [Active; 4] = [
    Active::All,
    Active::Alternating,
    Active::Sparse,
    Active::None,
];

impl Active {
    /// What a line's name says of it.
    pub fn name(self) -> &'static str {
        match self {
            Active::All => "all",
            Active::Alternating => "alternating",
            Active::Sparse => "sparse",
            Active::None => "none",
            Active::FirstHalf => "first half",
            Active::LastHalf => "last half",
            Active::Last => "last",
            Active::Stray => "stray",
            Active::Prefix => "prefix",
            Active::WholeAndEmpty => "whole and empty",
            Active::WholeAndHalf => "whole and half",
            Active::Random => "random",
        }
    }

    /// Whether this element of so many is active, where so many go by one
    /// predicate byte.
    fn has(self, element: usize, elements: usize, in_a_byte: usize) -> bool {
        let in_whole_byte = (element / in_a_byte).is_multiple_of(2);
        match self {
            Active::All => true,
            Active::Alternating => element.is_multiple_of(2),
            Active::Sparse => element.is_multiple_of(8),
            Active::None | Active::Stray => false,
            Active::FirstHalf => element < elements / 2,
            Active::LastHalf => element >= elements / 2,
            Active::Last => element + 1 == elements,
            Active::Prefix => element < (elements * 100 / 256).max(1),
            Active::WholeAndEmpty => in_whole_byte,
            Active::WholeAndHalf => in_whole_byte || element.is_multiple_of(2),
            Active::Random => drawn(element),
        }
    }

    /// A predicate register. An element goes by the bit of its first byte
    /// (document 01, section 3), and no other bit is set but stray ones.
    pub fn predicate(self, vector_bytes: usize, element_bytes: usize) -> Vec<u8> {
        let elements = vector_bytes / element_bytes;
        let in_a_byte = (8 / element_bytes).max(1);
        let mut predicate = vec![0; vector_bytes / 8];
        for bit in 0..vector_bytes {
            let is_set = if bit.is_multiple_of(element_bytes) {
                self.has(bit / element_bytes, elements, in_a_byte)
            } else {
                self == Active::Stray
            };
            predicate[bit / 8] |= u8::from(is_set) << (bit % 8);
        }
        predicate
    }
}

/// The bit of this element, where each draw gives those of 64.
fn drawn(element: usize) -> bool {
    let mut random = Random::new(SEED);
    for _ in 0..element / 64 {
        random.bits();
    }
    random.bits() >> (element % 64) & 1 == 1
}

#[cfg(test)]
mod tests {
    use super::*;

    const PATTERNS: [Active; 8] = [
        Active::All,
        Active::Alternating,
        Active::Sparse,
        Active::None,
        Active::FirstHalf,
        Active::LastHalf,
        Active::Last,
        Active::Stray,
    ];

    /// The bits of each pattern, in the order above, as one number.
    fn bits(vector_bytes: usize, element_bytes: usize) -> [u64; 8] {
        PATTERNS.map(|active| {
            let mut number = [0; 8];
            let predicate = active.predicate(vector_bytes, element_bytes);
            number[..vector_bytes / 8].copy_from_slice(&predicate);
            u64::from_le_bytes(number)
        })
    }

    #[test]
    fn of_16_bytes() {
        let none = 0;
        let bytes = [0xFFFF, 0x5555, 0x0101, none, 0x00FF, 0xFF00, 0x8000, 0];
        assert_eq!(bits(16, 1), bytes);
        let twos = [0x5555, 0x1111, 0x0001, none, 0x0055, 0x5500, 0x4000, 0xAAAA];
        assert_eq!(bits(16, 2), twos);
        let fours = [0x1111, 0x0101, 0x0001, none, 0x0011, 0x1100, 0x1000, 0xEEEE];
        assert_eq!(bits(16, 4), fours);
        let eights = [0x0101, 0x0001, 0x0001, none, 0x0001, 0x0100, 0x0100, 0xFEFE];
        assert_eq!(bits(16, 8), eights);
        let one = [0x0001, 0x0001, 0x0001, none, 0, 0x0001, 0x0001, 0xFFFE];
        assert_eq!(bits(16, 16), one);
    }

    #[test]
    fn of_64_bytes() {
        let all = [0x1111_1111_1111_1111, 0x0101_0101_0101_0101];
        let fewer = [0x0000_0001_0000_0001, 0];
        let parts = [0x1111_1111, 0x1111_1111_0000_0000, 0x1000_0000_0000_0000];
        let stray = [0xEEEE_EEEE_EEEE_EEEE];
        let fours = [&all[..], &fewer, &parts, &stray].concat();
        assert_eq!(bits(64, 4), fours[..]);
        let all = [0x0001_0001_0001_0001, 0x0000_0001_0000_0001];
        let fewer = [0x0001, 0];
        let parts = [0x0001_0001, 0x0001_0001_0000_0000, 0x0001_0000_0000_0000];
        let stray = [0xFFFE_FFFE_FFFE_FFFE];
        let sixteens = [&all[..], &fewer, &parts, &stray].concat();
        assert_eq!(bits(64, 16), sixteens[..]);
    }

    #[test]
    fn of_bytes_in_turn() {
        for (element_bytes, [whole, half]) in [
            (1, [0xFF, 0x55]),
            (2, [0x55, 0x11]),
            (4, [0x11, 0x01]),
            (8, [0x01, 0x00]),
        ] {
            for vector_bytes in [64, 256] {
                let of = |active: Active| active.predicate(vector_bytes, element_bytes);
                let in_turn = |second| [whole, second].repeat(vector_bytes / 16);
                assert_eq!(of(Active::WholeAndEmpty), in_turn(0), "{element_bytes}");
                assert_eq!(of(Active::WholeAndHalf), in_turn(half), "{element_bytes}");
            }
        }
    }

    /// A predicate byte has no more than one of the large elements, so that
    /// there is no half of it.
    #[test]
    fn large_elements_in_turn_alternate() {
        for element_bytes in [8, 16] {
            let of = |active: Active| active.predicate(256, element_bytes);
            assert_eq!(of(Active::WholeAndEmpty), of(Active::Alternating));
            assert_eq!(of(Active::WholeAndHalf), of(Active::Alternating));
        }
    }

    #[test]
    fn prefixes_have_no_gap() {
        // How many are active, none of which is behind an inactive one.
        let prefix = |vector_bytes: usize, element_bytes: usize| {
            let predicate = Active::Prefix.predicate(vector_bytes, element_bytes);
            let firsts = (0..vector_bytes).step_by(element_bytes);
            let active = firsts.map(|bit| predicate[bit / 8] >> (bit % 8) & 1 == 1);
            let active: Vec<_> = active.collect();
            assert!(active.is_sorted_by(|one, next| one >= next));
            active.iter().filter(|&&is_active| is_active).count()
        };
        assert_eq!([1, 4, 16].map(|size| prefix(256, size)), [100, 25, 6]);
        assert_eq!([1, 4, 16].map(|size| prefix(64, size)), [25, 6, 1]);
        assert_eq!([8, 16].map(|size| prefix(16, size)), [1, 1]);
    }

    /// Of 1-byte elements they are random bytes, those of a draw in the order
    /// in which the generator fills a buffer.
    #[test]
    fn random_ones_are_drawn() {
        let mut drawn = [0; 32];
        Random::new(SEED).fill(&mut drawn);
        assert_eq!(Active::Random.predicate(256, 1), drawn);
        let bit = |at: usize| drawn[at / 8] >> (at % 8) & 1 == 1;
        for element_bytes in [1, 2, 4, 8, 16] {
            let elements = 256 / element_bytes;
            let predicate = Active::Random.predicate(256, element_bytes);
            let expected = (0..elements).filter(|&at| bit(at)).count();
            let count = predicate.iter().map(|byte| byte.count_ones() as usize);
            assert_eq!(count.sum::<usize>(), expected);
            // Neither few nor many, and not in turn.
            assert!((elements / 4..=elements * 3 / 4).contains(&expected));
            assert_ne!(predicate, Active::Alternating.predicate(256, element_bytes));
        }
    }

    /// At 256 bytes the bits are counted: one for each active element, or all
    /// that no element goes by.
    #[test]
    fn counts_at_256_bytes() {
        for element_bytes in [1, 2, 4, 8, 16] {
            let elements = 256 / element_bytes;
            let half = elements / 2;
            let counts = PATTERNS.map(|active| {
                let predicate = active.predicate(256, element_bytes);
                predicate.iter().map(|byte| byte.count_ones()).sum::<u32>() as usize
            });
            let stray = 256 - elements;
            let expected = [elements, half, elements / 8, 0, half, half, 1, stray];
            assert_eq!(counts, expected, "{element_bytes}");
        }
    }
}
