//! The (24,12) code: worked numbers, and what must hold of every word.

use second::golay::{read_word, word23, word24, write_word};

#[test]
fn worked_words() {
    let rows = [
        (0, 0x800000),
        (1, 0x2E3001),
        (2, 0x5C6002),
        (2048, 0x571800),
        (0x123, 0x085123),
        (4095, 0x7FFFFF),
    ];
    for (information, word) in rows {
        assert_eq!(write_word(information), (0, word));
    }
}

#[test]
fn the_first_23_bits_are_a_header_word() {
    for information in 0..4096 {
        assert_eq!(word24(information) & 0x7FFFFF, word23(information));
    }
}

#[test]
fn the_count_of_ones_is_odd() {
    for information in 0..4096 {
        let weight = word24(information).count_ones();
        assert!([1, 7, 9, 11, 13, 15, 17, 23].contains(&weight));
    }
}

#[test]
fn any_two_words_differ_in_eight_bits() {
    let words: Vec<u32> = (0..4096).map(word24).collect();
    for (k, one) in words.iter().enumerate() {
        let least = words[k + 1..].iter().map(|w| (w ^ one).count_ones()).min();
        assert!(least.unwrap_or(8) >= 8);
    }
}

#[test]
fn every_word_comes_back() {
    for information in 0..4096 {
        let (number, word) = write_word(information);
        assert_eq!(number, 0);
        assert_eq!(read_word(word), (0, information as u16, 0));
    }
}

#[test]
fn three_flips_are_put_right_and_four_refused() {
    let word = word24(0x123);
    for pattern in 0u32..1 << 24 {
        let weight = pattern.count_ones();
        if weight <= 3 {
            assert_eq!(read_word(word ^ pattern), (0, 0x123, weight as u8));
        }
        if weight == 4 {
            assert_eq!(read_word(word ^ pattern), (31, 0, 0));
        }
    }
}

#[test]
fn the_last_bit_counts_among_the_flips() {
    assert_eq!(read_word(0), (0, 0, 1));
    assert_eq!(read_word(0xFFFFFF), (0, 4095, 1));
    assert_eq!(read_word(0x2E3001 ^ 0x800003), (0, 1, 3));
    assert_eq!(read_word(0x2E3001 ^ 0x800007), (31, 0, 0));
}

#[test]
fn too_large() {
    assert_eq!(read_word(1 << 24), (33, 0, 0));
    assert_eq!(read_word(u32::MAX), (33, 0, 0));
    assert_eq!(write_word(4096), (33, 0));
    assert_eq!(write_word(u32::MAX), (33, 0));
}
