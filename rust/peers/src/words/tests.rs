//! Texts of LLVM 16 and 19, read; and counting, which must fail.

use super::listing::Lines;
use super::text::{read, Reading};
use super::{archive, every_block, Count, Found, WordMistake};
use sme_move::Fields;

/// A word of each kind at level 3, with LLVM's text.
const TEXTS: [(u32, &str); 12] = [
    (0xC080ACA9, "mov\tza2v.s[w13, 1], p3/m, z5.s"),
    (0xC0020000, "mov\tz0.b, p0/m, za0h.b[w12, 0]"),
    (0xC0C2E3BF, "movaz\tz31.d, za6v.d[w15, 1]"),
    (0xC0064CFC, "mov\t{ z28.d - z31.d }, za.d[w10, 7, vgx4]"),
    (0xC0060800, "mov\t{ z0.d, z1.d }, za.d[w8, 0, vgx2]"),
    (0xC0060A6A, "movaz\t{ z10.d, z11.d }, za.d[w8, 3, vgx2]"),
    (0xC0060E00, "movaz\t{ z0.d - z3.d }, za.d[w8, 0, vgx4]"),
    (0xE03F03E0, "st1b\t{za0h.b[w12, 0]}, p0, [sp]"),
    (0xE0E40482, "st1d\t{za1h.d[w12, 0]}, p1, [x4, x4, lsl #3]"),
    (
        0xE1CF03EF,
        "ld1q\t{za15h.q[w12, 0]}, p0/z, [sp, x15, lsl #4]",
    ),
    (0xE01E0000, "ld1b\t{za0h.b[w12, 0]}, p0/z, [x0, x30]"),
    (
        0xE09F0000,
        "ld1w\t{za0h.s[w12, 0]}, p0/z, [x0, xzr, lsl #2]",
    ),
];

#[test]
fn texts_are_read_as_the_archive_decodes() {
    for (word, text) in TEXTS {
        let own = archive(word, 3).expect("the word decodes");
        assert_eq!(read(text), Reading::Ours(own), "{word:08X} {text}");
    }
}

#[test]
fn other_instructions_are_not_the_units() {
    let others = [
        "ldr\tza[w12, 0], [x0]",
        "zero\t{za}",
        "fmopa\tza0.s, p0/m, p0/m, z0.s, z0.s",
        "mov\tza.d[w8, 0, vgx2], { z0.d, z1.d }",
        "mov\tza0h.b[w12, 0:1], { z0.b, z1.b }",
        "mov\t{ z0.b, z1.b }, za0h.b[w12, 0:1]",
        "movaz\t{ z0.b - z3.b }, za0h.b[w12, 0:3]",
        "movt\tx0, zt0[0]",
    ];
    for text in others {
        assert_eq!(read(text), Reading::Other, "{text}");
    }
}

#[test]
fn what_might_be_the_units_is_not_passed_over() {
    let unclear = [
        "mov\tza2v.s[w13, 1], p3/m, z5.d",
        "mov\tza2v.s[w13, 1], p3/m, z5.s, z6.s",
        "mov\t{ z10.d, z13.d }, za.d[w8, 3, vgx4]",
        "mov\t{ z10.d, z12.d }, za.d[w8, 3, vgx2]",
        "mov\tx0, x1",
        "ld1b\t{za0h.b[w12, 0]}, p0, [x0, x30]",
        "ld1h\t{za0h.h[w12, 0]}, p0/z, [x0, x30]",
        "ld1w\t{za0h.h[w12, 0]}, p0/z, [x0, x30, lsl #2]",
        "st1b\t{za0h.b[w12, 00]}, p0, [sp]",
        "st1b\t{za0h.b[w12, 0]}, p0, [x31]",
    ];
    for text in unclear {
        assert_eq!(read(text), Reading::Unclear, "{text}");
    }
}

#[test]
fn each_number_is_compared() {
    let (word, text) = TEXTS[9];
    let numbers: [u8; 11] = archive(word, 1).expect("a load").into();
    for place in 0..numbers.len() {
        let mut wrong = numbers;
        wrong[place] ^= 1;
        let told = Count::default().add(Some(Fields::from(wrong)), Some(text));
        assert!(told.is_err(), "number {place}");
    }
}

#[test]
fn words_of_one_side_only_are_noticed() {
    let (word, text) = TEXTS[0];
    let own = archive(word, 1);
    assert!(Count::default().add(own, Some(text)).is_ok());
    assert!(Count::default().add(own, None).is_err());
    assert!(Count::default().add(None, Some(text)).is_err());
    assert!(Count::default().add(own, Some("zero\t{za}")).is_err());
    assert!(Count::default().add(None, Some("mov\tx0, x1")).is_err());
}

#[test]
fn blocks_are_all_words_once() {
    let blocks = every_block();
    assert_eq!(blocks.len(), 3 * 48);
    let words = |top: u32| {
        let own = blocks.iter().filter(|own| own.level == 2);
        let own = own.filter(|own| own.first >> 24 == top && own.last >> 24 == top);
        own.map(|own| u64::from(own.last - own.first) + 1)
            .sum::<u64>()
    };
    assert_eq!([0xC0, 0xE0, 0xE1].map(words), [1u64 << 24; 3]);
    assert!(Found::default().check().is_err());
}

#[test]
fn lines_that_are_cut_off_or_out_of_order_are_noticed() {
    let mut good = Lines::new("C0000001\tzero\t{za}\nend\n".as_bytes());
    good.advance().expect("a line");
    assert_eq!(good.take(0xC000_0000), Ok(None));
    assert_eq!(good.take(0xC000_0001), Ok(Some("zero\t{za}".to_string())));
    assert_eq!(good.finish(), Ok(()));
    let mut cut = Lines::new("C0000001\tzero\t{za}\n".as_bytes());
    cut.advance().expect("a line");
    assert!(cut.take(0xC000_0001).is_err());
    let mut early = Lines::new("BFFFFFFF\tzero\t{za}\nend\n".as_bytes());
    early.advance().expect("a line");
    assert_eq!(early.take(0xC000_0000), Ok(None));
    assert!(early.finish().is_err());
}

#[test]
fn wrong_decoders_are_wrong_where_they_are_looked_for() {
    for own in WordMistake::all() {
        let [block] = own.blocks()[..] else {
            panic!("one block");
        };
        let mut words = block.first..=block.last;
        let differs = |word| (own.decode)(word, block.level) != archive(word, block.level);
        assert!(words.any(differs), "{}", own.name);
    }
}
