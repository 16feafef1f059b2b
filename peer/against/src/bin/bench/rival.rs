//! `second::fast` in the shape of the library's calls: answers go to lent places, as C wants it. Otherwise the shape of
//! the call would be measured and not the work. Called through a pointer, it cannot be inlined, as the library cannot.
//! The reader that names no table has its like in `second::plain`.

use second::image::USEFUL;
use second::{fast, plain};

pub const READ_WORD: fn(u32, &mut u16, &mut u8) -> u8 = read_word;
pub const READ_HEADER: fn(u32) -> (u8, u16, u8, u8) = fast::read_header;
pub const READ_HEADER_WITHIN: fn(u32, u32) -> (u8, u16, u8, u8) = fast::read_header_within;
pub const READ_HEADER_PLAIN: fn(u32, u32) -> (u8, u16, u8, u8) = plain::read_header_plain;
pub const RECEIVED: fn(bool, &[u8], &mut u8, &mut u8, &mut [u8; USEFUL]) -> u8 = received;
pub const PACKET: fn(&mut [u8], &[u8]) -> u8 = fast::packet;
pub const WRITE_GROUP: fn(u32, u32, &[u8], &mut [u8]) -> u8 = fast::write_group;

fn read_word(n: u32, information: &mut u16, flips: &mut u8) -> u8 {
    let number;
    (number, *information, *flips) = fast::read_word(n);
    number
}

fn received(
    protected: bool,
    image: &[u8],
    place: &mut u8,
    index: &mut u8,
    bytes: &mut [u8; USEFUL],
) -> u8 {
    let number;
    (number, *place, *index) = fast::received(protected, image, bytes);
    number
}
