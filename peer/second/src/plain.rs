//! The plain header reader (document 02, Ask 10), which names no table: error patterns are tried, fewest flips first, until one leaves a word.
//!
//! `golay` looks through all words and `fast` keeps a table; here nothing is kept, and no word is made. Bit k of a header
//! is the k-th bit sent and stands for x^(22-k), so the division (4.3.6.1.3) goes from bit 0 upwards.

use crate::numbers::{DONE, HEADER_BEYOND, SETTING, TOO_LARGE};

const BITS: u32 = 23;
/// Where the remainder is left: from here on stand the powers below x^11.
const REMAINDER_AT: u32 = 12;
/// G(x) = x^11 + x^10 + x^6 + x^5 + x^4 + x^2 + 1, with x^11 in bit 0 as in the first step of the division.
const GENERATOR: u32 = 1 | 1 << 1 | 1 << 5 | 1 << 6 | 1 << 7 | 1 << 9 | 1 << 11;
const MOST_FLIPS: u32 = 3;

/// (number, address, index, flips), as `golay::read_header_within` gives them.
pub fn read_header_plain(n: u32, most: u32) -> (u8, u16, u8, u8) {
    if n >> BITS != 0 {
        return (TOO_LARGE, 0, 0, 0);
    }
    if most > MOST_FLIPS {
        return (SETTING, 0, 0, 0);
    }
    let Some((word, flips)) = search(n, most, |tried| remainder(tried) == 0) else {
        return (HEADER_BEYOND, 0, 0, 0);
    };
    let (address, index) = (word & 0x3FF, word >> 10 & 3);
    (DONE, address as u16, index as u8, flips as u8)
}

/// The first number that is taken, and its flips. Tried are `n` as it is, then with each single bit turned over, each
/// pair, each triple, up to `most`.
pub fn search(n: u32, most: u32, mut taken: impl FnMut(u32) -> bool) -> Option<(u32, u32)> {
    let mut turned = |flips| turn(n, flips, BITS, &mut taken);
    (0..=most).find_map(|flips| Some((turned(flips)?, flips)))
}

/// The same with exactly so many flips below a bit: by the highest bit turned over, and under each by the others alike.
fn turn(n: u32, flips: u32, below: u32, taken: &mut impl FnMut(u32) -> bool) -> Option<u32> {
    if flips == 0 {
        return taken(n).then_some(n);
    }
    (0..below).find_map(|bit| turn(n ^ 1 << bit, flips - 1, bit, taken))
}

/// The remainder of the division by G(x), with x^10 in bit 0. A number that leaves none is a word.
pub fn remainder(n: u32) -> u32 {
    let mut rest = n;
    for place in 0..REMAINDER_AT {
        // A digit of the quotient. Multiplied, not asked about: what is as good as random is a bad branch.
        let digit = rest >> place & 1;
        rest ^= digit * (GENERATOR << place);
    }
    rest >> REMAINDER_AT
}
