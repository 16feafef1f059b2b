//! The (23,12) code of packet headers (4.3.6.1.3) and the (24,12) code of protected data (8.3.2, 9.5.2).
//!
//! The first bit sent is the highest power of x, so a row of bits in sending order is already a row of coefficients
//! with the highest power first: nothing has to be turned round.

use crate::bits;
use crate::division::remainder;
use crate::numbers::{refuse_unless, DONE, HEADER_BEYOND, SETTING, TOO_LARGE, WORD_UNREADABLE};
use std::ops::RangeInclusive;
use std::sync::OnceLock;

/// The powers of x in G(x) = x^11 + x^10 + x^6 + x^5 + x^4 + x^2 + 1, as the standard prints it.
const GENERATOR: [usize; 7] = [11, 10, 6, 5, 4, 2, 0];
const ADDRESS_BITS: usize = 10;
const INDEX_BITS: usize = 2;
const INFORMATION_BITS: usize = ADDRESS_BITS + INDEX_BITS;
const SUFFIX_BITS: usize = 11;
const WORD23_BITS: usize = INFORMATION_BITS + SUFFIX_BITS;
const WORD24_BITS: usize = WORD23_BITS + 1;
/// Both codes put right up to three flips.
pub const MOST_FLIPS: u32 = 3;
/// The greatest number of flips that the header reader may be set to put right (document 02, Ask 7).
pub const SETTINGS: RangeInclusive<u32> = 0..=MOST_FLIPS;

/// The header word of twelve information bits: M(x) = x^11 m(x) + r(x).
pub fn word23(information: u32) -> u32 {
    bits::to_number(&row23(information))
}

/// The same with a 24th bit that makes the count of ones odd.
pub fn word24(information: u32) -> u32 {
    let mut row = row23(information);
    let even = bits::ones(&row).is_multiple_of(2);
    row.push(even);
    bits::to_number(&row)
}

fn row23(information: u32) -> Vec<bool> {
    assert!(fits(information, INFORMATION_BITS), "twelve bits");
    let mut row = bits::of_number(information, INFORMATION_BITS);
    let mut raised = row.clone();
    raised.extend([false; SUFFIX_BITS]);
    row.extend(remainder(&raised, &generator()));
    row
}

fn generator() -> Vec<bool> {
    let powers = (0..=SUFFIX_BITS).rev();
    powers.map(|power| GENERATOR.contains(&power)).collect()
}

/// Reads a header as the word within three flips; there always is one: (number, address, index, flips).
pub fn read_header(n: u32) -> (u8, u16, u8, u8) {
    read_header_within(n, MOST_FLIPS)
}

/// Reads a header as the word within as many flips as the setting says, if there is one: (number, address, index,
/// flips). Noise lies within three flips of some word always, and within fewer seldom.
pub fn read_header_within(n: u32, most: u32) -> (u8, u16, u8, u8) {
    match header(n, most) {
        Ok((address, index, flips)) => (DONE, address, index, flips),
        Err(number) => (number, 0, 0, 0),
    }
}

fn header(n: u32, most: u32) -> Result<(u16, u8, u8), u8> {
    refuse_unless(fits(n, WORD23_BITS), TOO_LARGE)?;
    refuse_unless(SETTINGS.contains(&most), SETTING)?;
    let (information, flips) = near(words23(), n, most).ok_or(HEADER_BEYOND)?;
    let row = bits::of_number(information, INFORMATION_BITS);
    let (address, index) = row.split_at(ADDRESS_BITS);
    let address = bits::to_number(address) as u16;
    let index = bits::to_number(index) as u8;
    Ok((address, index, flips))
}

/// The header of an address and an index: (number, header).
pub fn write_header(address: u32, index: u32) -> (u8, u32) {
    if !fits(address, ADDRESS_BITS) || !fits(index, INDEX_BITS) {
        return (TOO_LARGE, 0);
    }
    let mut row = bits::of_number(address, ADDRESS_BITS);
    row.extend(bits::of_number(index, INDEX_BITS));
    (DONE, word23(bits::to_number(&row)))
}

/// Reads 24 bits as the word within three flips, if there is one: (number, information, flips).
pub fn read_word(n: u32) -> (u8, u16, u8) {
    if !fits(n, WORD24_BITS) {
        return (TOO_LARGE, 0, 0);
    }
    match near(words24(), n, MOST_FLIPS) {
        Some((information, flips)) => (DONE, information as u16, flips),
        None => (WORD_UNREADABLE, 0, 0),
    }
}

/// The (24,12) word of an information: (number, word).
pub fn write_word(information: u32) -> (u8, u32) {
    if !fits(information, INFORMATION_BITS) {
        return (TOO_LARGE, 0);
    }
    (DONE, word24(information))
}

fn fits(n: u32, count: usize) -> bool {
    n >> count == 0
}

/// The information of the word within `most` flips of `n`, and these flips. Within three flips there is never more than
/// one word.
fn near(words: &[u32], n: u32, most: u32) -> Option<(u32, u8)> {
    let flips = |word: u32| (word ^ n).count_ones();
    let information = words.iter().position(|&word| flips(word) <= most)?;
    Some((information as u32, flips(words[information]) as u8))
}

/// All header words by their information. Kept, because every reading looks at all of them.
fn words23() -> &'static [u32] {
    static WORDS: OnceLock<Vec<u32>> = OnceLock::new();
    WORDS.get_or_init(|| all(word23))
}

fn words24() -> &'static [u32] {
    static WORDS: OnceLock<Vec<u32>> = OnceLock::new();
    WORDS.get_or_init(|| all(word24))
}

fn all(word: fn(u32) -> u32) -> Vec<u32> {
    (0..1 << INFORMATION_BITS).map(word).collect()
}
