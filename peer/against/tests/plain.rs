//! The header reader that names no table: the library's against the library's with a table, and against every reader of
//! the second program.
//!
//! A sample is run always. All 2^23 numbers at each of the four settings take minutes on every core, and are run by hand:
//!
//!     cargo test --release --offline -p against --test plain -- --ignored

use against::{read_header_plain, read_header_within};
use second::golay::{word23, SETTINGS};
use second::samples::rounds;
use second::xorshift::Xorshift;
use second::{fast, golay, plain, samples};
use std::thread;

const NUMBERS: u32 = 1 << 23;
/// No setting: above 3, and numbers that would be one once their high bits are cut off.
const NO_SETTINGS: [u32; 8] = [4, 5, 7, 255, 256, 65_537, 1 << 31, u32::MAX];

/// Five readers, one answer.
fn same(n: u32, most: u32) {
    let read = read_header_plain(n, most);
    assert_eq!(read, read_header_within(n, most), "{n:08x} {most}");
    assert_eq!(read, plain::read_header_plain(n, most), "{n:08x} {most}");
    assert_eq!(read, golay::read_header_within(n, most), "{n:08x} {most}");
    assert_eq!(read, fast::read_header_within(n, most), "{n:08x} {most}");
}

/// Every pattern of at most three flips.
fn patterns() -> Vec<u32> {
    let all = 0..NUMBERS;
    all.filter(|pattern| pattern.count_ones() <= 3).collect()
}

/// Every pattern is found, the first that is tried and the last, on the first word, the last and some others.
#[test]
fn every_pattern_on_some_words_at_every_setting() {
    let patterns = patterns();
    assert_eq!(patterns.len(), 2048);
    for information in [0, 17, 17 | 1 << 10, 0x555, 0xAAA, 0xFFF] {
        for pattern in &patterns {
            let n = word23(information) ^ pattern;
            let (address, index) = (information & 0x3FF, information >> 10);
            let whole = (0, address as u16, index as u8, pattern.count_ones() as u8);
            assert_eq!(read_header_plain(n, 3), whole, "{n:06x}");
            SETTINGS.for_each(|most| same(n, most));
        }
    }
}

/// Noise alone has three flips mostly, so that headers with as many flips as each edge has are made besides.
#[test]
fn random_numbers_at_every_setting() {
    let mut random = Xorshift::new(801);
    for round in 0..rounds(20_000) {
        let noise = random.number() >> 9;
        for n in [samples::header(&mut random, round % 4), noise] {
            SETTINGS.for_each(|most| same(n, most));
        }
    }
}

/// Numbers of every size, on both sides of 2^23: single bits, and rows of ones from either end.
#[test]
fn numbers_of_every_size() {
    for bit in 0..u32::BITS {
        for n in [1 << bit, (1 << bit) - 1, u32::MAX << bit, u32::MAX >> bit] {
            SETTINGS.chain(NO_SETTINGS).for_each(|most| same(n, most));
        }
    }
}

/// 33 comes before 48, whatever is wrong besides.
#[test]
fn too_large() {
    let mut random = Xorshift::new(803);
    let edges = [
        NUMBERS,
        NUMBERS + 1,
        NUMBERS | 0xF,
        1 << 24,
        1 << 31,
        u32::MAX,
    ];
    let others = (0..10_000).map(|_| random.number() | NUMBERS);
    for n in edges.into_iter().chain(others) {
        for most in SETTINGS.chain(NO_SETTINGS) {
            assert_eq!(read_header_plain(n, most), (33, 0, 0, 0), "{n:08x} {most}");
        }
    }
}

/// 48 comes before 49, and where the header is sound.
#[test]
fn no_such_setting() {
    let mut random = Xorshift::new(805);
    for round in 0..10_000 {
        let sound = samples::header(&mut random, 0);
        let other = random.number().max(4);
        for n in [sound, random.number() >> 9, 0, 0xF, NUMBERS - 1] {
            for most in [NO_SETTINGS[round % NO_SETTINGS.len()], other] {
                assert_eq!(read_header_plain(n, most), (48, 0, 0, 0), "{n:06x} {most}");
            }
        }
    }
}

/// One more flip than the setting says is 49, as many are not.
#[test]
fn beyond_the_setting() {
    let mut random = Xorshift::new(807);
    for round in 0..2_000 {
        let flips = round % 4;
        let n = samples::header(&mut random, flips);
        for most in SETTINGS {
            let beyond = flips > most as usize;
            let (number, address, index, put_right) = read_header_plain(n, most);
            assert_eq!(number, if beyond { 49 } else { 0 }, "{n:06x} {most}");
            assert_eq!(usize::from(put_right), if beyond { 0 } else { flips });
            assert!(!beyond || (address, index) == (0, 0), "{n:06x} {most}");
        }
    }
}

#[test]
#[ignore = "minutes on every core; the head of this file says how it is run"]
fn all_numbers_at_every_setting() {
    let threads = thread::available_parallelism().map_or(1, usize::from);
    thread::scope(|scope| {
        for first in 0..threads as u32 {
            let numbers = (first..NUMBERS).step_by(threads);
            scope.spawn(|| numbers.for_each(|n| SETTINGS.for_each(|most| same(n, most))));
        }
    });
}
