//! The rival for measuring: the same readings as a practised programmer would write them, with tables and shifts.

mod group;
mod state;
mod tables;

pub use group::{packet, packet_detail, write_group};

use crate::image::{IMAGE, PROTECTED, USEFUL};
use crate::numbers::{DONE, HEADER_BEYOND, LENGTH, SETTING, TOO_LARGE, WORD_UNREADABLE};
use tables::{CHECKS, PARITY_SHIFT, PATTERNS, REMAINDER_MASK, TYPE_NUMBERS, WEIGHT_SHIFT};

const MOST_FLIPS: u32 = 3;

/// (number, address, index, flips), as `golay::read_header` gives them.
pub fn read_header(n: u32) -> (u8, u16, u8, u8) {
    read_header_within(n, MOST_FLIPS)
}

/// (number, address, index, flips), as `golay::read_header_within` gives them.
#[inline]
pub fn read_header_within(n: u32, most: u32) -> (u8, u16, u8, u8) {
    if n >> 23 != 0 {
        return (TOO_LARGE, 0, 0, 0);
    }
    if most > MOST_FLIPS {
        return (SETTING, 0, 0, 0);
    }
    let (information, flips) = correct23(n);
    if flips > most {
        return (HEADER_BEYOND, 0, 0, 0);
    }
    let address = information & 0x3FF;
    let index = information >> 10;
    (DONE, address as u16, index as u8, flips as u8)
}

/// (number, information, flips), as `golay::read_word` gives them.
#[inline]
pub fn read_word(n: u32) -> (u8, u16, u8) {
    if n >> 24 != 0 {
        return (TOO_LARGE, 0, 0);
    }
    let (information, flips) = correct24(n);
    if flips > MOST_FLIPS {
        return (WORD_UNREADABLE, 0, 0);
    }
    (DONE, information as u16, flips as u8)
}

/// (number, place, index), as `image::received` gives them. The bytes go to a lent buffer.
#[inline]
pub fn received(protected: bool, image: &[u8], bytes: &mut [u8; USEFUL]) -> (u8, u8, u8) {
    let Ok(image) = <&[u8; IMAGE]>::try_from(image) else {
        return refused(LENGTH, 0, bytes);
    };
    let number = type_number(image);
    if number != DONE {
        return refused(number, 0, bytes);
    }
    if !protected {
        take_plain(image, bytes);
    } else if let Some(place) = take_protected(image, bytes) {
        return refused(WORD_UNREADABLE, place, bytes);
    }
    let (_, index, _) = header(image);
    (DONE, 0, index as u8)
}

/// Address, index and flips.
fn header(image: &[u8; IMAGE]) -> (u32, usize, u32) {
    let header = u32::from_le_bytes([image[0], image[1], image[2] & 0x7F, 0]);
    let (information, flips) = correct23(header);
    (information & 0x3FF, (information >> 10) as usize, flips)
}

/// The number that the type byte is answered with.
fn type_number(image: &[u8; IMAGE]) -> u8 {
    let kind = image[2] >> 7 | image[3] << 1;
    TYPE_NUMBERS[usize::from(kind)]
}

fn refused(number: u8, place: u8, bytes: &mut [u8; USEFUL]) -> (u8, u8, u8) {
    bytes.fill(0);
    (number, place, 0)
}

fn take_plain(image: &[u8; IMAGE], bytes: &mut [u8; USEFUL]) {
    for (j, byte) in bytes.iter_mut().enumerate() {
        *byte = image[3 + j] >> 7 | image[4 + j] << 1;
    }
}

fn take_protected(image: &[u8; IMAGE], bytes: &mut [u8; USEFUL]) -> Option<u8> {
    let (data, rest) = bytes.split_first_chunk_mut().expect("45 are less than 90");
    rest.fill(0);
    take_words(image, data)
}

/// Two words give three bytes. Gives the place of the first word that cannot be read.
fn take_words(image: &[u8; IMAGE], data: &mut [u8; PROTECTED]) -> Option<u8> {
    for (pair, three) in data.chunks_exact_mut(3).enumerate() {
        let (low, low_flips) = correct24(word_at(image, 2 * pair));
        let (high, high_flips) = correct24(word_at(image, 2 * pair + 1));
        if low_flips > MOST_FLIPS {
            return Some(2 * pair as u8);
        }
        if high_flips > MOST_FLIPS {
            return Some(2 * pair as u8 + 1);
        }
        let both = low | high << 12;
        three.copy_from_slice(&both.to_le_bytes()[..3]);
    }
    None
}

fn word_at(image: &[u8; IMAGE], place: usize) -> u32 {
    let at = 3 + 3 * place;
    let four = [image[at], image[at + 1], image[at + 2], image[at + 3]];
    u32::from_le_bytes(four) >> 7 & 0xFF_FFFF
}

/// Information and flips of a 23-bit number; every such number has a word within three flips.
fn correct23(n: u32) -> (u32, u32) {
    let pattern = PATTERNS[(check(n) & REMAINDER_MASK) as usize];
    ((n ^ pattern) & 0xFFF, pattern >> WEIGHT_SHIFT)
}

/// Information and flips of a 24-bit number. More than three flips mean that there is no word near.
fn correct24(n: u32) -> (u32, u32) {
    let check = check(n);
    let pattern = PATTERNS[(check & REMAINDER_MASK) as usize];
    let weight = pattern >> WEIGHT_SHIFT;
    // A word has odd parity, so an even number of ones means an odd number of flips: if the weight does not fit that,
    // the last bit was flipped too.
    let odd_flips = check >> PARITY_SHIFT ^ 1;
    let flips = weight + ((weight ^ odd_flips) & 1);
    ((n ^ pattern) & 0xFFF, flips)
}

fn check(n: u32) -> u32 {
    let [low, middle, high, _] = n.to_le_bytes().map(usize::from);
    u32::from(CHECKS[0][low] ^ CHECKS[1][middle] ^ CHECKS[2][high])
}
