//! Kinds of damage.

use std::ops::Range;

/// Random numbers from a seed, the same everywhere (SplitMix64).
pub struct Random(pub u64);

impl Random {
    fn next(&mut self) -> u64 {
        self.0 = self.0.wrapping_add(0x9E37_79B9_7F4A_7C15);
        let mut mixed = self.0;
        mixed = (mixed ^ mixed >> 30).wrapping_mul(0xBF58_476D_1CE4_E5B9);
        mixed = (mixed ^ mixed >> 27).wrapping_mul(0x94D0_49BB_1331_11EB);
        mixed ^ mixed >> 31
    }

    /// A number below `bound`, which is not 0.
    pub fn below(&mut self, bound: usize) -> usize {
        (self.next() % bound as u64) as usize
    }

    fn byte(&mut self) -> u8 {
        self.next() as u8
    }

    /// One of the ranges, or an empty one at the start where there is none.
    fn one_of(&mut self, ranges: &[Range<usize>]) -> Range<usize> {
        match ranges.len() {
            0 => 0..0,
            count => ranges[self.below(count)].clone(),
        }
    }
}

/// A name and what it does to a file.
pub type Kind = (&'static str, fn(&mut Vec<u8>, &mut Random));

pub const KINDS: [Kind; 18] = [
    ("mark of UTF-16", |file, random| {
        let marks: [&[u8]; 2] = [b"\xFE\xFF", b"\xFF\xFE"];
        put(file, 0..0, marks[random.below(2)]);
    }),
    ("mark of UTF-8", |file, random| {
        // At the start it is no damage, and twice at the start it is.
        let places = [0, place(file, random)];
        let at = places[random.below(2)];
        put(file, at..at, b"\xEF\xBB\xBF");
    }),
    ("byte changed", |file, random| {
        let at = place(file, random);
        let byte = random.byte();
        put(file, at..at + 1, &[byte]);
    }),
    ("bit flipped", |file, random| {
        let (at, bit) = (place(file, random), random.below(8));
        let byte = file.get(at).copied().unwrap_or(0) ^ 1 << bit;
        put(file, at..at + 1, &[byte]);
    }),
    ("byte deleted", |file, random| {
        let at = place(file, random);
        put(file, at..at + 1, &[]);
    }),
    ("byte inserted", |file, random| {
        let (at, byte) = (place(file, random), random.byte());
        put(file, at..at, &[byte]);
    }),
    ("not UTF-8", |file, random| {
        let at = place(file, random);
        let wrong: [&[u8]; 5] = [b"\xFF", b"\xC0\x80", b"\xED\xA0\x80", b"\xF5", b"\xE2\x82"];
        put(file, at..at, wrong[random.below(wrong.len())]);
    }),
    ("truncated", |file, random| {
        let at = place(file, random);
        file.truncate(at);
    }),
    ("beginning lost", |file, random| {
        let at = place(file, random);
        file.drain(..at);
    }),
    ("line cut", |file, random| {
        let line = random.one_of(&statements(file));
        let at = line.start + random.below(line.len().max(1));
        put(file, at..line.end, b"\n");
    }),
    ("line lost", |file, random| {
        let line = random.one_of(&statements(file));
        put(file, line, &[]);
    }),
    ("line doubled", |file, random| {
        let line = random.one_of(&statements(file));
        let copy = file[line.clone()].to_vec();
        put(file, line.start..line.start, &copy);
    }),
    ("lines swapped", |file, random| {
        let lines = statements(file);
        let (one, other) = (random.one_of(&lines), random.one_of(&lines));
        let (first, last) = if one.start < other.start {
            (one, other)
        } else {
            (other, one)
        };
        let (early, late) = (file[first.clone()].to_vec(), file[last.clone()].to_vec());
        if first != last {
            put(file, last, &early);
            put(file, first, &late);
        }
    }),
    ("number too long", |file, random| {
        let value = random.one_of(&values(file));
        let more = vec![b'0' + random.below(10) as u8; 1 + random.below(40)];
        put(file, value.end..value.end, &more);
    }),
    ("huge number", |file, random| {
        let value = random.one_of(&values(file));
        let huge = [
            "18446744073709551616",
            "FFFFFFFFFFFFFFFFF",
            "-1",
            "4294967296",
            "+5",
            "1e9",
        ];
        put(file, value, huge[random.below(huge.len())].as_bytes());
    }),
    ("very long line", |file, random| {
        let value = random.one_of(&values(file));
        let long = vec![b'7'; 1000 * (1 + random.below(100))];
        put(file, value, &long);
    }),
    ("word lost or doubled", |file, random| {
        let value = random.one_of(&values(file));
        let copy = file[value.clone()].to_vec();
        match random.below(2) {
            0 => put(file, value, &[]),
            _ => put(
                file,
                value.end..value.end,
                &[b" ", copy.as_slice()].concat(),
            ),
        }
    }),
    ("random bytes", |file, random| {
        let length = random.below(200);
        let noise: Vec<u8> = (0..length).map(|_| random.byte()).collect();
        let at = place(file, random);
        put(file, at..at + length, &noise);
    }),
];

/// Damage to a file that is no text.
pub const BINARY_KINDS: [Kind; 6] = [
    ("binary byte changed", |file, random| {
        let (at, byte) = (place(file, random), random.byte());
        put(file, at..at + 1, &[byte]);
    }),
    ("binary file truncated", |file, random| {
        let at = place(file, random);
        file.truncate(at);
    }),
    ("binary file emptied", |file, _| file.clear()),
    ("binary file longer", |file, random| {
        let length = 1 + random.below(300);
        let noise: Vec<u8> = (0..length).map(|_| random.byte()).collect();
        file.extend(noise);
    }),
    ("binary bytes lost", |file, random| {
        let (at, length) = (place(file, random), 1 + random.below(8));
        put(file, at..at + length, &[]);
    }),
    ("binary file huge", |file, random| {
        // More words and more of the array than there may be; as memory it is still allowed.
        file.resize((4 << 20) + 4 + random.below(9), 0);
    }),
];

/// A file after one to three strokes of one kind.
pub fn damaged(file: &[u8], kind: Kind, random: &mut Random) -> Vec<u8> {
    let mut file = file.to_vec();
    for _ in 0..=random.below(3) {
        (kind.1)(&mut file, random);
    }
    file
}

fn place(file: &[u8], random: &mut Random) -> usize {
    random.below(file.len() + 1)
}

/// Puts bytes in the place of a range, of which only the part within the file counts.
fn put(file: &mut Vec<u8>, range: Range<usize>, bytes: &[u8]) {
    let end = range.end.min(file.len());
    file.splice(range.start.min(end)..end, bytes.iter().copied());
}

/// Where the lines lie that are not empty and no comments, with their ends.
fn statements(file: &[u8]) -> Vec<Range<usize>> {
    let mut start = 0;
    let lines = file.split_inclusive(|&byte| byte == b'\n').map(|line| {
        start += line.len();
        start - line.len()..start
    });
    lines
        .filter(|line| !matches!(file[line.start], b'#' | b'\n'))
        .collect()
}

/// Where the values of statements lie: what stands between blanks, after the first and before a
/// comment.
fn values(file: &[u8]) -> Vec<Range<usize>> {
    let of_line = |line: Range<usize>| {
        let bytes = &file[line.clone()];
        let length = bytes
            .iter()
            .position(|&byte| byte == b'#')
            .unwrap_or(bytes.len());
        let mut start = line.start;
        let parts = bytes[..length]
            .split(u8::is_ascii_whitespace)
            .map(move |part| {
                let range = start..start + part.len();
                start = range.end + 1;
                range
            });
        parts
            .filter(|part| !part.is_empty())
            .skip(1)
            .collect::<Vec<_>>()
    };
    statements(file).into_iter().flat_map(of_line).collect()
}
