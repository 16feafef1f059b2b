//! Inputs for differential tests, all made from a seed: images here, sound ones, damaged ones and noise; states made by
//! hand and calls in the folder; and for the multiplex's map lawful broadcasts, and fields and maps of any sort.

pub mod broadcast;
pub mod calls;
pub mod maps;
pub mod speaker;
pub mod states;
pub mod structures;
pub mod style;

use crate::golay::word23;
use crate::image::{self, HEADER_AT, IMAGE, PROTECTED, TYPE_AT, USEFUL, USEFUL_AT, WORD};
use crate::types::{DATA, TYPES};
use crate::xorshift::Xorshift;
use std::ops::Range;

/// Words in the useful part of an image.
pub const WORDS: usize = 30;

/// How often a test goes round: as often as it says, or so many times that as PEER_TIMES says.
pub fn rounds(usual: usize) -> usize {
    let times = std::env::var("PEER_TIMES").unwrap_or("1".into());
    usual * times.parse::<usize>().expect("PEER_TIMES is a number")
}

/// The first place where two rows of bytes differ. A state is too long to be printed.
pub fn difference(one: &[u8], other: &[u8]) -> Option<usize> {
    if one == other {
        return None;
    }
    let both = one.iter().zip(other);
    let same = both.take_while(|(a, b)| a == b).count();
    Some(same)
}

/// Turns one bit of a row of bytes over.
pub fn flip(bytes: &mut [u8], bit: usize) {
    bytes[bit / 8] ^= 1 << (bit % 8);
}

/// Turns over `count` different bits of a stretch.
pub fn flip_some(random: &mut Xorshift, bytes: &mut [u8], stretch: Range<usize>, count: usize) {
    let mut places: Vec<usize> = stretch.collect();
    for _ in 0..count {
        let place = places.swap_remove(random.below(places.len()));
        flip(bytes, place);
    }
}

/// A header of any address and index, with exactly so many flips.
pub fn header(random: &mut Xorshift, flips: usize) -> u32 {
    let mut bytes = word23(random.below(1 << 12) as u32).to_le_bytes();
    flip_some(random, &mut bytes, HEADER_AT, flips);
    u32::from_le_bytes(bytes)
}

/// The bits of a word in the row of an image.
pub fn word_at(place: usize) -> Range<usize> {
    let start = USEFUL_AT.start + WORD * place;
    start..start + WORD
}

/// A sound image of a type, for any address and index.
pub fn sound(random: &mut Xorshift, protected: bool, kind: u8) -> [u8; IMAGE] {
    let useful: [u8; USEFUL] = if protected {
        image::protect(&random.bytes::<PROTECTED>())
    } else {
        random.bytes()
    };
    let address = random.below(1024) as u32;
    let index = random.below(4) as u32;
    image::write_image(address, index, kind, &useful)
}

/// Exactly so many flips in the header, in the type byte and in every word.
pub fn damage(random: &mut Xorshift, bytes: &mut [u8], header: usize, kind: usize, word: usize) {
    flip_some(random, bytes, HEADER_AT, header);
    flip_some(random, bytes, TYPE_AT, kind);
    for place in 0..WORDS {
        flip_some(random, bytes, word_at(place), word);
    }
}

/// A sound data image with no more flips anywhere than its codes put right.
pub fn curable(random: &mut Xorshift, protected: bool) -> [u8; IMAGE] {
    let mut bytes = sound(random, protected, DATA);
    let (header, kind) = (random.below(4), random.below(3));
    damage(random, &mut bytes, header, kind, 0);
    for place in 0..WORDS {
        let count = random.below(4);
        flip_some(random, &mut bytes, word_at(place), count);
    }
    bytes
}

/// A curable image with four or more flips in one word or in two.
pub fn with_bad_words(random: &mut Xorshift, protected: bool) -> [u8; IMAGE] {
    let mut bytes = curable(random, protected);
    for _ in 0..2 {
        let (place, count) = (random.below(WORDS), 4 + random.below(8));
        flip_some(random, &mut bytes, word_at(place), count);
    }
    bytes
}

/// A sound image of any type with any number of flips in its header and type byte.
pub fn with_bad_front(random: &mut Xorshift, protected: bool) -> [u8; IMAGE] {
    let kind = TYPES[random.below(TYPES.len())];
    let mut bytes = sound(random, protected, kind);
    let (header, kind) = (random.below(24), random.below(9));
    damage(random, &mut bytes, header, kind, 0);
    bytes
}

/// Noise behind a type byte that reads as data, so that the rest is looked at.
pub fn noise_as_data(random: &mut Xorshift) -> [u8; IMAGE] {
    let mut bytes: [u8; IMAGE] = random.bytes();
    bytes[2] &= 0x7F;
    bytes[3] &= 0x80;
    bytes
}

/// Bytes that are not an image: too few, too many, or none.
pub fn wrong_length(random: &mut Xorshift) -> Vec<u8> {
    let mut bytes = sound(random, false, DATA).repeat(2);
    let mut length = random.below(bytes.len());
    if length == IMAGE {
        length += 1;
    }
    bytes.truncate(length);
    bytes
}

/// A protection and an image of any of these sorts, with the spare bit set now and then.
pub fn any(random: &mut Xorshift) -> (bool, Vec<u8>) {
    let protected = random.chance();
    let mut bytes = match random.below(8) {
        0 => random.bytes::<IMAGE>().to_vec(),
        1 => noise_as_data(random).to_vec(),
        2 => wrong_length(random),
        3 => with_bad_front(random, protected).to_vec(),
        4 | 5 => with_bad_words(random, protected).to_vec(),
        // Also read as what it was not written as.
        6 => curable(random, !protected).to_vec(),
        _ => curable(random, protected).to_vec(),
    };
    if bytes.len() == IMAGE && random.below(4) == 0 {
        flip(&mut bytes, USEFUL_AT.end);
    }
    (protected, bytes)
}
