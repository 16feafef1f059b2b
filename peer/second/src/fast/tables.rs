//! The tables of the fast readers, all worked out when the program is compiled.
//!
//! Bit k of a number is the k-th bit sent and stands for x^(22-k). Remainders are kept the same way round: bit j of a
//! remainder stands for x^(10-j).

use crate::numbers::{DONE, TYPE_CONTROL, TYPE_RESERVED, TYPE_SCRAMBLED, TYPE_UNREADABLE};

/// G(x) without x^11, turned round like the remainders: x^10, x^6, x^5, x^4, x^2, 1.
const GENERATOR: u32 = 1 << 0 | 1 << 4 | 1 << 5 | 1 << 6 | 1 << 8 | 1 << 10;

pub const REMAINDER_MASK: u32 = 0x7FF;
/// The parity of all 24 bits rides along above the remainder.
pub const PARITY_SHIFT: u32 = 11;
/// The weight of a pattern is kept above its 23 bits.
pub const WEIGHT_SHIFT: u32 = 24;

/// What each byte of a 24-bit number adds to its check: the remainder, and the parity above it.
pub static CHECKS: [[u16; 256]; 3] = [checks(0), checks(8), checks(16)];
/// For each remainder the one pattern of at most three flips that leaves it, with its weight.
pub static PATTERNS: [u32; 2048] = patterns();
/// The (24,12) word of each information.
pub static WORDS: [u32; 4096] = words();
/// The number that a type byte is answered with.
pub static TYPE_NUMBERS: [u8; 256] = type_numbers();

/// The suffix of an information, by a shift register that takes the highest power first.
pub const fn suffix(information: u32) -> u32 {
    let mut register = 0;
    let mut k = 0;
    while k < 12 {
        let out = (register ^ information >> k) & 1;
        register >>= 1;
        if out == 1 {
            register ^= GENERATOR;
        }
        k += 1;
    }
    register
}

const fn remainder(n: u32) -> u32 {
    suffix(n & 0xFFF) ^ n >> 12 & REMAINDER_MASK
}

const fn checks(shift: u32) -> [u16; 256] {
    let mut table = [0; 256];
    let mut byte = 0;
    while byte < 256 {
        let n = (byte as u32) << shift;
        let parity = n.count_ones() & 1;
        table[byte] = (remainder(n) | parity << PARITY_SHIFT) as u16;
        byte += 1;
    }
    table
}

/// Three bits that need not differ give every pattern of weight one, two or three.
const fn patterns() -> [u32; 2048] {
    let mut table = [0; 2048];
    let mut a = 0;
    while a < 23 {
        let mut b = a;
        while b < 23 {
            let mut c = b;
            while c < 23 {
                let pattern: u32 = 1 << a | 1 << b | 1 << c;
                let weight = pattern.count_ones();
                table[remainder(pattern) as usize] = pattern | weight << WEIGHT_SHIFT;
                c += 1;
            }
            b += 1;
        }
        a += 1;
    }
    table
}

const fn words() -> [u32; 4096] {
    let mut table = [0; 4096];
    let mut information = 0;
    while information < 4096 {
        let word = information | suffix(information) << 12;
        let even = word.count_ones() & 1 ^ 1;
        table[information as usize] = word | even << 23;
        information += 1;
    }
    table
}

const fn type_numbers() -> [u8; 256] {
    let mut table = [TYPE_UNREADABLE; 256];
    let mut byte = 0;
    while byte < 256 {
        if near(byte, 0x00) {
            table[byte] = DONE;
        } else if near(byte, 0x3F) {
            table[byte] = TYPE_CONTROL;
        } else if near(byte, 0xC7) {
            table[byte] = TYPE_RESERVED;
        } else if near(byte, 0xF8) {
            table[byte] = TYPE_SCRAMBLED;
        }
        byte += 1;
    }
    table
}

const fn near(byte: usize, value: usize) -> bool {
    (byte ^ value).count_ones() <= 2
}

#[cfg(test)]
mod tests {
    use super::*;

    const PATTERN_MASK: u32 = (1 << 23) - 1;

    #[test]
    fn each_pattern_leaves_its_own_remainder() {
        for (expected, &entry) in (0u32..).zip(&PATTERNS) {
            let pattern = entry & PATTERN_MASK;
            assert_eq!(remainder(pattern), expected);
            assert_eq!(entry >> WEIGHT_SHIFT, pattern.count_ones());
            assert!(pattern.count_ones() <= 3);
        }
    }

    #[test]
    fn worked_patterns() {
        let rows = [
            (1, 0x001000),
            (2, 0x002000),
            (0x400, 0x400000),
            (7, 0x007000),
            (15, 0x200402),
            (0x7FF, 0x0080A0),
        ];
        for (place, pattern) in rows {
            assert_eq!(PATTERNS[place] & PATTERN_MASK, pattern);
        }
    }
}
