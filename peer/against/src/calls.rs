//! The library's calls on a lent state, and its group writer, behind safe functions over slices of any length: what is
//! right about a length is the library's to say.

use crate::{MARK, MARK_SIZE};
use second::group::Detailed;
use second::table::Lent;

extern "C" {
    fn feed_start(state: *mut u8, state_len: usize) -> u8;
    fn feed_follow(
        state: *mut u8,
        state_len: usize,
        address: u32,
        protection: u32,
        limit: u32,
    ) -> u8;
    fn feed_leave(state: *mut u8, state_len: usize, address: u32) -> u8;
    fn feed_packet(state: *mut u8, state_len: usize, image: *const u8, image_len: usize) -> u8;
    fn feed_packet_detail(
        state: *mut u8,
        state_len: usize,
        image: *const u8,
        image_len: usize,
        awaited_or_place: *mut u8,
        came: *mut u8,
    ) -> u8;
    fn feed_subframe_end(state: *mut u8, state_len: usize) -> u8;
    fn feed_set_header_flips(state: *mut u8, state_len: usize, most: u32) -> u8;
    fn feed_ask(
        state: *const u8,
        state_len: usize,
        address: u32,
        at: *mut usize,
        len: *mut usize,
    ) -> u8;
    fn feed_board_text(
        state: *const u8,
        state_len: usize,
        address: u32,
        notice: *const u8,
        notice_len: usize,
        from: *mut u8,
        at: *mut usize,
        len: *mut usize,
    ) -> u8;
    fn feed_write_group(
        address: u32,
        protection: u32,
        message: *const u8,
        message_len: usize,
        output: *mut u8,
        output_len: usize,
    ) -> u8;
}

pub fn start(state: &mut [u8]) -> u8 {
    // SAFETY: the call writes the state within its length, and it is borrowed alone.
    unsafe { feed_start(state.as_mut_ptr(), state.len()) }
}

pub fn follow(state: &mut [u8], address: u32, protection: u32, limit: u32) -> u8 {
    let (start, length) = (state.as_mut_ptr(), state.len());
    // SAFETY: the call reads and writes the state within its length, and it is borrowed alone.
    unsafe { feed_follow(start, length, address, protection, limit) }
}

pub fn leave(state: &mut [u8], address: u32) -> u8 {
    // SAFETY: the call reads and writes the state within its length, and it is borrowed alone.
    unsafe { feed_leave(state.as_mut_ptr(), state.len(), address) }
}

#[inline]
pub fn packet(state: &mut [u8], image: &[u8]) -> u8 {
    let (start, length) = (state.as_mut_ptr(), state.len());
    // SAFETY: the call reads the image and reads and writes the state, each within its length. The state is borrowed
    // alone, so the two do not overlap.
    unsafe { feed_packet(start, length, image.as_ptr(), image.len()) }
}

/// The same with what the number carries.
pub fn packet_detail(state: &mut [u8], image: &[u8]) -> Detailed {
    let (mut awaited_or_place, mut came) = (MARK, MARK);
    // SAFETY: the call reads the image and reads and writes the state, each within its length, and writes these two values. The
    // state is borrowed alone, so nothing overlaps.
    let number = unsafe {
        feed_packet_detail(
            state.as_mut_ptr(),
            state.len(),
            image.as_ptr(),
            image.len(),
            &mut awaited_or_place,
            &mut came,
        )
    };
    Detailed {
        number,
        awaited_or_place,
        came,
    }
}

pub fn subframe_end(state: &mut [u8]) -> u8 {
    // SAFETY: the call reads and writes the state within its length, and it is borrowed alone.
    unsafe { feed_subframe_end(state.as_mut_ptr(), state.len()) }
}

pub fn set_header_flips(state: &mut [u8], most: u32) -> u8 {
    // SAFETY: the call reads and writes the state within its length, and it is borrowed alone.
    unsafe { feed_set_header_flips(state.as_mut_ptr(), state.len(), most) }
}

/// (number, place, length)
pub fn ask(state: &[u8], address: u32) -> (u8, usize, usize) {
    let (mut at, mut length) = (MARK_SIZE, MARK_SIZE);
    let (start, state_length) = (state.as_ptr(), state.len());
    // SAFETY: the call reads the state within its length and writes only these two values.
    let number = unsafe { feed_ask(start, state_length, address, &mut at, &mut length) };
    (number, at, length)
}

/// (number, which buffer, place, length)
pub fn board_text(state: &[u8], address: u32, notice: &[u8]) -> (u8, Lent, usize, usize) {
    let (mut from, mut at, mut length) = (MARK, MARK_SIZE, MARK_SIZE);
    // SAFETY: the call reads the state and the notice within their lengths and writes only these three values.
    let number = unsafe {
        feed_board_text(
            state.as_ptr(),
            state.len(),
            address,
            notice.as_ptr(),
            notice.len(),
            &mut from,
            &mut at,
            &mut length,
        )
    };
    let lent = match from {
        0 => Lent::Notice,
        1 => Lent::State,
        other => panic!("board text is from neither buffer: {other}"),
    };
    (number, lent, at, length)
}

#[inline]
pub fn write_group(address: u32, protection: u32, message: &[u8], output: &mut [u8]) -> u8 {
    let (text, length) = (message.as_ptr(), message.len());
    let (room, room_length) = (output.as_mut_ptr(), output.len());
    // SAFETY: the call reads the message and writes the output, each within its length. The output is borrowed alone,
    // so the two do not overlap.
    unsafe { feed_write_group(address, protection, text, length, room, room_length) }
}
