//! The packet type byte (4.3.6.2, 7.4.2.3): an (8,2) code that puts right two flips.

use crate::bits;
use crate::numbers::{DONE, TYPE_UNREADABLE};

pub const DATA: u8 = 0x00;
/// Of a control packet, which is no group's.
pub const CONTROL: u8 = 0x3F;
/// Of no use yet.
pub const RESERVED: u8 = 0xC7;
pub const SCRAMBLED: u8 = 0xF8;
pub const TYPES: [u8; 4] = [DATA, CONTROL, RESERVED, SCRAMBLED];

const MOST_FLIPS: usize = 2;

/// The type within two flips of a byte: (number, value, flips). Two types never compete, as they differ in five bits.
pub fn read_type(byte: u8) -> (u8, u8, u8) {
    for value in TYPES {
        let flips = bits::flips(&row(byte), &row(value));
        if flips <= MOST_FLIPS {
            return (DONE, value, flips as u8);
        }
    }
    (TYPE_UNREADABLE, 0, 0)
}

/// Gives a type back and refuses every other byte, near to a type or not: (number, value).
pub fn write_type(byte: u8) -> (u8, u8) {
    if TYPES.contains(&byte) {
        (DONE, byte)
    } else {
        (TYPE_UNREADABLE, 0)
    }
}

fn row(byte: u8) -> Vec<bool> {
    bits::of_bytes(&[byte])
}
