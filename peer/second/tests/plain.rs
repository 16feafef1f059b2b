//! The header reader that names no table: its parts, and the same answers as the reader that looks through all words.

use second::golay::{read_header_within, word23, SETTINGS};
use second::plain::{read_header_plain, remainder, search};
use second::samples;
use second::xorshift::Xorshift;

/// No setting: above 3, and numbers that would be one once their high bits are cut off.
const NO_SETTINGS: [u32; 6] = [4, 255, 256, 65_539, 1 << 31, u32::MAX];

fn same(n: u32, most: u32) {
    let expected = read_header_within(n, most);
    assert_eq!(read_header_plain(n, most), expected, "{n:08x} {most}");
}

/// Everything that is tried up to a setting, in the order of trying.
fn tried(n: u32, most: u32) -> Vec<u32> {
    let mut all = Vec::new();
    let taken = search(n, most, |number| {
        all.push(number);
        false
    });
    assert_eq!(taken, None);
    all
}

/// Bits 12 to 22 of the words of 1, 2, 4, ..., 2048: what a single bit leaves is its word's suffix, or itself.
#[test]
fn worked_remainders() {
    let suffixes = [
        0x2E3, 0x5C6, 0x16F, 0x2DE, 0x5BC, 0x19B, 0x336, 0x66C, 0x63B, 0x695, 0x7C9, 0x571,
    ];
    for (k, suffix) in suffixes.into_iter().enumerate() {
        assert_eq!(remainder(1 << k), suffix);
    }
    for k in 0..11 {
        assert_eq!(remainder(1 << (12 + k)), 1 << k);
    }
}

#[test]
fn words_and_nothing_else_leave_no_remainder() {
    let mut words: Vec<u32> = (0..4096).map(word23).collect();
    words.sort();
    let none: Vec<u32> = (0..1 << 23).filter(|&n| remainder(n) == 0).collect();
    assert_eq!(none, words);
}

#[test]
fn so_many_patterns_are_tried() {
    for (most, count) in SETTINGS.zip([1, 1 + 23, 1 + 23 + 253, 1 + 23 + 253 + 1771]) {
        assert_eq!(tried(0, most).len(), count);
    }
    let mut remainders: Vec<u32> = tried(0, 3).into_iter().map(remainder).collect();
    remainders.sort();
    assert!(remainders.into_iter().eq(0..2048), "each leaves another");
}

/// By the number of flips, then by the highest bit, then by those below it: of as many flips, the lesser number first.
#[test]
fn the_order_of_trying() {
    let patterns = tried(0, 3);
    let order = |&pattern: &u32| (pattern.count_ones(), pattern);
    assert!(patterns.is_sorted_by_key(order));
    assert_eq!(patterns[..4], [0, 1, 2, 4]);
    assert_eq!(patterns[23..25], [1 << 22, 0b11]);
    assert_eq!(patterns[276..278], [0x60_0000, 0b111]);
    assert_eq!(patterns.last(), Some(&0x70_0000));
    let header = word23(17);
    let turned: Vec<u32> = patterns.iter().map(|pattern| header ^ pattern).collect();
    assert_eq!(tried(header, 3), turned);
}

/// Nothing is tried behind what is taken.
#[test]
fn the_first_is_taken() {
    let mut count = 0;
    let taken = search(0, 3, |n| {
        count += 1;
        n.count_ones() == 2
    });
    assert_eq!((taken, count), (Some((0b11, 2)), 25));
}

#[test]
fn every_pattern_on_the_headers_of_some_addresses() {
    for address in [0, 17, 527, 1023] {
        for index in 0..4 {
            let header = word23(address | index << 10);
            for pattern in tried(0, 3) {
                let flips = pattern.count_ones();
                let whole = (0, address as u16, index as u8, flips as u8);
                assert_eq!(read_header_plain(header ^ pattern, 3), whole);
                SETTINGS.for_each(|most| same(header ^ pattern, most));
            }
        }
    }
}

/// Noise alone has three flips mostly, so that headers with as many flips as each edge has are made besides.
#[test]
fn random_numbers_at_every_setting() {
    let mut random = Xorshift::new(809);
    for round in 0..10_000 {
        let noise = random.number() >> 9;
        let any = random.number() >> random.below(12);
        for n in [samples::header(&mut random, round % 4), noise, any] {
            SETTINGS.for_each(|most| same(n, most));
            same(n, NO_SETTINGS[round % NO_SETTINGS.len()]);
            same(n, random.number());
        }
    }
}

/// 33, 48, 49: each row has the faults of those below it too. No setting is cut to a byte.
#[test]
fn the_order_of_refusals() {
    for n in [1 << 23, 0x80_000F, 1 << 24, 1 << 31, u32::MAX] {
        for most in SETTINGS.chain(NO_SETTINGS) {
            assert_eq!(read_header_plain(n, most), (33, 0, 0, 0), "{n:08x} {most}");
        }
    }
    for n in [0, 0xF, 0x75_F011, 0x70_0000, (1 << 23) - 1] {
        for most in NO_SETTINGS {
            assert_eq!(read_header_plain(n, most), (48, 0, 0, 0), "{n:08x} {most}");
        }
    }
    for most in SETTINGS {
        assert_eq!(read_header_plain((1 << 23) - 1, most), (0, 1023, 3, 0));
    }
    assert_eq!(read_header_plain(0xF, 2), (49, 0, 0, 0));
    assert_eq!(read_header_plain(0xF, 3), (0, 527, 0, 3));
    assert_eq!(read_header_plain(0x70_0000, 2), (49, 0, 0, 0));
    assert_eq!(read_header_plain(0x70_0000, 3), (0, 0, 0, 3));
}
