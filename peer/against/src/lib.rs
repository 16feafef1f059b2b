//! The library under test, behind safe functions with the same shapes as those of `second` and `second::fast`.
//!
//! Every value that the library has to write is set to a mark before the call. A call that leaves one alone, even in a
//! refusal, then differs from the other implementations.
//!
//! Here are the bare readings and writings. The calls on a state of any length are in `calls`, those on the multiplex's
//! map in `map`; `feed` is what a program in Rust would use, and `both` is for the differential tests.

pub mod both;
pub mod calls;
pub mod feed;
pub mod map;

use second::image::{Received, USEFUL};

extern "C" {
    fn feed_read_header(n: u32, address: *mut u16, index: *mut u8, flips: *mut u8) -> u8;
    fn feed_read_header_within(
        n: u32,
        most: u32,
        address: *mut u16,
        index: *mut u8,
        flips: *mut u8,
    ) -> u8;
    fn feed_read_header_plain(
        n: u32,
        most: u32,
        address: *mut u16,
        index: *mut u8,
        flips: *mut u8,
    ) -> u8;
    fn feed_write_header(address: u32, index: u32, header: *mut u32) -> u8;
    fn feed_read_word(n: u32, information: *mut u16, flips: *mut u8) -> u8;
    fn feed_write_word(information: u32, word: *mut u32) -> u8;
    fn feed_read_type(byte: u8, value: *mut u8, flips: *mut u8) -> u8;
    fn feed_write_type(byte: u8, value: *mut u8) -> u8;
    fn feed_received(
        protection: u8,
        image: *const u8,
        image_len: usize,
        place: *mut u8,
        index: *mut u8,
        bytes: *mut u8,
        bytes_len: usize,
    ) -> u8;
}

/// The mark: no address, index, count of flips, place, information, word, header or type.
pub const MARK: u8 = 0xA5;
const MARK16: u16 = 0xA5A5;
const MARK32: u32 = 0xA5A5_A5A5;
const MARK64: u64 = 0xA5A5_A5A5_A5A5_A5A5;
/// The mark: no place in a lent buffer, and no length of one.
const MARK_SIZE: usize = 0xA5A5_A5A5;

/// (number, address, index, flips)
pub fn read_header(n: u32) -> (u8, u16, u8, u8) {
    let (mut address, mut index, mut flips) = (MARK16, MARK, MARK);
    // SAFETY: the call writes only these three values, and all live until it returns.
    let number = unsafe { feed_read_header(n, &mut address, &mut index, &mut flips) };
    (number, address, index, flips)
}

/// (number, address, index, flips), with as many flips as the setting says at most.
pub fn read_header_within(n: u32, most: u32) -> (u8, u16, u8, u8) {
    let (mut address, mut index, mut flips) = (MARK16, MARK, MARK);
    // SAFETY: the call writes only these three values, and all live until it returns.
    let number = unsafe { feed_read_header_within(n, most, &mut address, &mut index, &mut flips) };
    (number, address, index, flips)
}

/// The same by the reader that names no table.
pub fn read_header_plain(n: u32, most: u32) -> (u8, u16, u8, u8) {
    let (mut address, mut index, mut flips) = (MARK16, MARK, MARK);
    // SAFETY: the call writes only these three values, and all live until it returns.
    let number = unsafe { feed_read_header_plain(n, most, &mut address, &mut index, &mut flips) };
    (number, address, index, flips)
}

/// (number, header)
pub fn write_header(address: u32, index: u32) -> (u8, u32) {
    let mut header = MARK32;
    // SAFETY: the call writes only this value.
    let number = unsafe { feed_write_header(address, index, &mut header) };
    (number, header)
}

/// (number, information, flips)
pub fn read_word(n: u32) -> (u8, u16, u8) {
    let (mut information, mut flips) = (MARK16, MARK);
    let number = read_word_into(n, &mut information, &mut flips);
    (number, information, flips)
}

/// The bare call, for measuring.
#[inline]
pub fn read_word_into(n: u32, information: &mut u16, flips: &mut u8) -> u8 {
    // SAFETY: the call writes only these two values.
    unsafe { feed_read_word(n, information, flips) }
}

/// (number, word)
pub fn write_word(information: u32) -> (u8, u32) {
    let mut word = MARK32;
    // SAFETY: the call writes only this value.
    let number = unsafe { feed_write_word(information, &mut word) };
    (number, word)
}

/// (number, value, flips)
pub fn read_type(byte: u8) -> (u8, u8, u8) {
    let (mut value, mut flips) = (MARK, MARK);
    // SAFETY: the call writes only these two values.
    let number = unsafe { feed_read_type(byte, &mut value, &mut flips) };
    (number, value, flips)
}

/// (number, value)
pub fn write_type(byte: u8) -> (u8, u8) {
    let mut value = MARK;
    // SAFETY: the call writes only this value.
    let number = unsafe { feed_write_type(byte, &mut value) };
    (number, value)
}

/// (number, place, index), with the bytes in a lent buffer that is not cleared before.
pub fn received(protected: bool, image: &[u8], bytes: &mut [u8; USEFUL]) -> (u8, u8, u8) {
    let (mut place, mut index) = (MARK, MARK);
    let number = received_into(protected, image, &mut place, &mut index, bytes);
    (number, place, index)
}

/// The bare call, for measuring.
#[inline]
pub fn received_into(
    protected: bool,
    image: &[u8],
    place: &mut u8,
    index: &mut u8,
    bytes: &mut [u8; USEFUL],
) -> u8 {
    received_raw(u8::from(protected), image, place, index, bytes)
}

/// The bare call with any protection and any room for the bytes.
#[inline]
pub fn received_raw(
    protection: u8,
    image: &[u8],
    place: &mut u8,
    index: &mut u8,
    bytes: &mut [u8],
) -> u8 {
    let (start, length) = (image.as_ptr(), image.len());
    let (room, room_length) = (bytes.as_mut_ptr(), bytes.len());
    // SAFETY: the call reads the image and writes two values and the buffer, each within its stated length. What it
    // writes is borrowed alone, so nothing overlaps.
    unsafe { feed_received(protection, start, length, place, index, room, room_length) }
}

/// The same as one value, from a buffer full of marks.
pub fn received_whole(protected: bool, image: &[u8]) -> Received {
    let mut bytes = [MARK; USEFUL];
    let (number, place, index) = received(protected, image, &mut bytes);
    Received {
        number,
        place,
        index,
        bytes,
    }
}
