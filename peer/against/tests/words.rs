//! The words of protected data: the library against both other implementations.

use against::{read_word, write_word};
use second::xorshift::Xorshift;
use second::{fast, golay};

#[test]
fn all_written() {
    for information in 0..4096 {
        assert_eq!(write_word(information), golay::write_word(information));
    }
}

#[test]
fn too_large_to_write() {
    for information in [4096, 4097, 65_536 + 5, 1 << 31, u32::MAX] {
        assert_eq!(write_word(information), (33, 0), "{information}");
    }
}

#[test]
fn all_numbers_read_as_fast_reads_them() {
    for n in 0..1 << 24 {
        assert_eq!(read_word(n), fast::read_word(n), "{n:06x}");
    }
}

#[test]
fn some_numbers_read_as_second_reads_them() {
    let mut random = Xorshift::new(21);
    for _ in 0..20_000 {
        let n = random.number() >> 8;
        assert_eq!(read_word(n), golay::read_word(n), "{n:06x}");
    }
}

/// Both sides of the edge. Noise alone seldom has fewer than three flips.
#[test]
fn words_with_no_flips_to_five() {
    let mut random = Xorshift::new(22);
    for round in 0..12_000 {
        let mut n = golay::word24(random.number() >> 20);
        for _ in 0..round % 6 {
            n ^= 1 << random.below(24);
        }
        assert_eq!(read_word(n), golay::read_word(n), "{n:06x}");
    }
}

#[test]
fn too_large_to_read() {
    let mut random = Xorshift::new(23);
    let edges = [1 << 24, (1 << 24) + 1, 1 << 31, u32::MAX];
    let others = (0..10_000).map(|_| random.number() | 1 << 24);
    for n in edges.into_iter().chain(others) {
        assert_eq!(read_word(n), (33, 0, 0), "{n:08x}");
    }
}
