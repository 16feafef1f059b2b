//! The (23,12) code: worked numbers, and what must hold of every word.

use second::golay::{read_header, read_header_within, word23, write_header, SETTINGS};

/// Bits 12 to 22 of the words of 1, 2, 4, ..., 2048.
const SUFFIXES: [u32; 12] = [
    0x2E3, 0x5C6, 0x16F, 0x2DE, 0x5BC, 0x19B, 0x336, 0x66C, 0x63B, 0x695, 0x7C9, 0x571,
];

#[test]
fn unit_suffixes() {
    for (k, suffix) in SUFFIXES.into_iter().enumerate() {
        assert_eq!(word23(1 << k), suffix << 12 | 1 << k);
    }
}

#[test]
fn words_add_up() {
    for information in 0..4096 {
        let units = (0..12).filter(|k| information >> k & 1 == 1);
        let sum = units.fold(0, |sum, k| sum ^ word23(1 << k));
        assert_eq!(word23(information), sum);
    }
}

#[test]
fn worked_headers() {
    let rows = [
        (0, 0, 0x000000),
        (17, 0, 0x75F011),
        (17, 1, 0x096411),
        (17, 2, 0x22E811),
        (17, 3, 0x5E7C11),
        (1, 0, 0x2E3001),
        (1022, 0, 0x7A43FE),
        (1023, 0, 0x5473FF),
        (1023, 3, 0x7FFFFF),
        (0, 3, 0x2B8C00),
    ];
    for (address, index, header) in rows {
        assert_eq!(write_header(address, index), (0, header));
    }
}

#[test]
fn worked_readings() {
    assert_eq!(read_header(0), (0, 0, 0, 0));
    assert_eq!(read_header(1 << 0 | 1 << 5 | 1 << 22), (0, 0, 0, 3));
    assert_eq!(read_header(0x7FFFFF), (0, 1023, 3, 0));
    let cleared = 1 << 1 | 1 << 2 | 1 << 20;
    assert_eq!(read_header(0x7FFFFF ^ cleared), (0, 1023, 3, 3));
    // Four flips from address 0 are three from another.
    assert_eq!(read_header(0xF), (0, 527, 0, 3));
    assert_eq!(0xF ^ 0x201200, word23(527));
}

#[test]
fn every_header_comes_back() {
    for address in 0..1024 {
        for index in 0..4 {
            let (number, header) = write_header(address, index);
            assert_eq!(number, 0);
            assert_eq!(read_header(header), (0, address as u16, index as u8, 0));
        }
    }
}

#[test]
fn three_flips_are_put_right() {
    let header = word23(17 | 2 << 10);
    for (pattern, weight) in patterns() {
        assert_eq!(read_header(header ^ pattern), (0, 17, 2, weight));
    }
}

/// "Let the header reader be given the greatest number of flips to correct, 0 to 3, and refuse beyond it."
#[test]
fn as_many_flips_are_put_right_as_the_setting_says() {
    let header = word23(17 | 2 << 10);
    for (pattern, weight) in patterns() {
        for most in SETTINGS {
            let read = u32::from(weight) <= most;
            let expected = if read {
                (0, 17, 2, weight)
            } else {
                (49, 0, 0, 0)
            };
            assert_eq!(read_header_within(header ^ pattern, most), expected);
        }
    }
}

/// The reader without a setting is the one at 3.
#[test]
fn three_is_the_reader_without_a_setting() {
    for n in (0..1 << 23).step_by(997).chain([1 << 23, u32::MAX]) {
        assert_eq!(read_header_within(n, 3), read_header(n), "{n:08x}");
    }
}

/// Every pattern of at most three of 23 bits, with its weight.
fn patterns() -> impl Iterator<Item = (u32, u8)> {
    let all = 0u32..1 << 23;
    all.map(|pattern| (pattern, pattern.count_ones() as u8))
        .filter(|&(_, weight)| weight <= 3)
}

#[test]
fn there_are_as_many_patterns_as_remainders() {
    assert_eq!(patterns().count(), 2048);
}

#[test]
fn any_two_words_differ_in_seven_bits() {
    // The words add up, so it is enough to look at the weights.
    let least = (1..4096).map(|n| word23(n).count_ones()).min();
    assert_eq!(least, Some(7));
}

/// 33, 48, 49: each row has the faults of those below it too. No setting is cut to a byte.
#[test]
fn the_order_with_a_setting() {
    let settings = [4, 5, 255, 256, 257, 65_539, u32::MAX];
    for most in settings {
        assert_eq!(read_header_within(0x80000F, most), (33, 0, 0, 0));
        assert_eq!(read_header_within(0xF, most), (48, 0, 0, 0));
        assert_eq!(read_header_within(0, most), (48, 0, 0, 0));
    }
    assert_eq!(read_header_within(0x80000F, 0), (33, 0, 0, 0));
    assert_eq!(read_header_within(0xF, 2), (49, 0, 0, 0));
    assert_eq!(read_header_within(0xF, 3), (0, 527, 0, 3));
}

#[test]
fn too_large() {
    assert_eq!(read_header(0x800000), (33, 0, 0, 0));
    assert_eq!(read_header(u32::MAX), (33, 0, 0, 0));
    assert_eq!(write_header(1024, 0), (33, 0));
    assert_eq!(write_header(0, 4), (33, 0));
    assert_eq!(write_header(u32::MAX, u32::MAX), (33, 0));
}
