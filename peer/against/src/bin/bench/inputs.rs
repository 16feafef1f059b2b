//! What both sides are given. Made from seeds, so that two runs measure the same work.

use second::golay::{word23, word24};
use second::group::write_group;
use second::image::IMAGE;
use second::samples::{self, states};
use second::slot::group_length;
use second::table::{follow, set_header_flips, STATE};
use second::types::DATA;
use second::xorshift::Xorshift;

pub type Image = [u8; IMAGE];
pub type State = [u8; STATE];

const WORDS: usize = 16_384;
/// Few enough for a reader that tries pattern after pattern, which takes a thousand times as long as one with a table.
const FEW_HEADERS: usize = 128;
/// The pattern that such a reader comes to last.
const LAST_PATTERN: u32 = 0x70_0000;
/// Few enough to stay in the nearest cache, too many for a branch to be learnt by heart.
const IMAGES: usize = 256;

/// Words with so many flips, each of them in another bit.
pub fn words(flips: usize) -> Vec<u32> {
    damaged(41, word24, 24, flips)
}

/// Headers, without a parity bit, with so many flips.
pub fn headers(flips: usize) -> Vec<u32> {
    damaged(47, word23, 23, flips)
}

/// Fewer of them, for the reader that names no table.
pub fn few_headers(flips: usize) -> Vec<u32> {
    let mut few = headers(flips);
    few.truncate(FEW_HEADERS);
    few
}

/// Headers of which every pattern is tried: the worst case.
pub fn headers_tried_last() -> Vec<u32> {
    let clean = few_headers(0);
    clean.iter().map(|header| header ^ LAST_PATTERN).collect()
}

fn damaged(seed: u64, word: fn(u32) -> u32, width: usize, flips: usize) -> Vec<u32> {
    let mut random = Xorshift::new(seed);
    let mut one = || {
        let mut bytes = word(random.number() >> 20).to_le_bytes();
        samples::flip_some(&mut random, &mut bytes, 0..width, flips);
        u32::from_le_bytes(bytes)
    };
    (0..WORDS).map(|_| one()).collect()
}

pub fn plain() -> Vec<Image> {
    let mut random = Xorshift::new(42);
    let mut image = || samples::sound(&mut random, false, DATA);
    (0..IMAGES).map(|_| image()).collect()
}

/// Protected images with so many flips in every word; header and type byte are clean.
pub fn protected(flips: usize) -> Vec<Image> {
    let mut random = Xorshift::new(43);
    let mut image = || {
        let mut image = samples::sound(&mut random, true, DATA);
        samples::damage(&mut random, &mut image, 0, 0, flips);
        image
    };
    (0..IMAGES).map(|_| image()).collect()
}

/// A state in which so many addresses are followed, from 1 on, at a setting.
pub fn following(count: u32, protected: bool, most: u32) -> State {
    let mut state: State = states::started().try_into().expect("a state");
    assert_eq!(set_header_flips(&mut state, most), 0, "a setting");
    for address in 1..=count {
        let number = follow(&mut state, address, protected.into(), 1500);
        assert_eq!(number, 0, "a free slot");
    }
    state
}

/// Whole groups for so many addresses by turns, packet after packet, with so many flips in every header and every word.
/// In plain data flips are no work to anybody: only the header gets them.
pub fn groups(count: u32, protected: bool, flips: usize) -> Vec<Image> {
    let mut random = Xorshift::new(44);
    let mut images = Vec::new();
    for address in (1..=count).cycle().take(IMAGES / 4) {
        let mut four = [[0; IMAGE]; 4];
        let message = &random.bytes::<360>()[..group_length(protected)];
        let output = four.as_flattened_mut();
        let number = write_group(address, protected.into(), message, output);
        assert_eq!(number, 0, "a group");
        for image in &mut four {
            let word = if protected { flips } else { 0 };
            samples::damage(&mut random, image, flips, 0, word);
        }
        images.extend(four);
    }
    images
}

/// Messages to be written.
pub fn messages(protected: bool) -> Vec<Vec<u8>> {
    let mut random = Xorshift::new(45);
    let mut message = || random.bytes::<360>()[..group_length(protected)].to_vec();
    (0..IMAGES / 4).map(|_| message()).collect()
}
