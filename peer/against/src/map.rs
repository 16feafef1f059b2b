//! The library's calls on the multiplex's map, behind safe functions over slices of any length, with the same shapes as
//! those of `second::map`. Every value that the library has to write is set to a mark before the call.

use crate::{MARK, MARK32, MARK64, MARK_SIZE};

extern "C" {
    fn feed_map_start(map: *mut u8, map_len: usize) -> u8;
    fn feed_map_take(map: *mut u8, map_len: usize, field: *const u8, field_len: usize) -> u8;
    fn feed_map_show(
        map: *const u8,
        map_len: usize,
        id: u8,
        count: u8,
        at: *mut usize,
        len: *mut usize,
        announced: *mut u8,
        frames: *mut u8,
        unknown: *mut u8,
    ) -> u8;
    fn feed_map_heard(
        map: *const u8,
        map_len: usize,
        id: u8,
        count: u8,
        at: *mut usize,
        len: *mut usize,
        whole: *mut u8,
    ) -> u8;
    fn feed_map_known(
        map: *const u8,
        map_len: usize,
        count: u8,
        row: *mut u8,
        unbroken: *mut u8,
        components: *mut usize,
    ) -> u8;
    fn feed_map_list(map: *const u8, map_len: usize, count: u8, out: *mut u8, out_len: usize)
        -> u8;
    fn feed_map_read(
        field: *const u8,
        field_len: usize,
        count: *mut u8,
        flag: *mut u8,
        id: *mut u8,
        tdms: *mut u64,
        links: *mut u8,
    ) -> u8;
    fn feed_map_write(
        count: u8,
        flag: u8,
        id: u8,
        tdms: u64,
        links: u8,
        out: *mut u8,
        out_len: usize,
    ) -> u8;
    fn feed_map_pack(
        fln1: u32,
        lln1: u32,
        fln2: u32,
        lln2: u32,
        fcp: u32,
        lcp: u32,
        tdms: *mut u64,
    ) -> u8;
    fn feed_map_unpack(
        tdms: u64,
        fln1: *mut u32,
        lln1: *mut u32,
        fln2: *mut u32,
        lln2: *mut u32,
        fcp: *mut u32,
        lcp: *mut u32,
    ) -> u8;
}

pub fn start(map: &mut [u8]) -> u8 {
    // SAFETY: the call writes the map within its length, and it is borrowed alone.
    unsafe { feed_map_start(map.as_mut_ptr(), map.len()) }
}

pub fn take(map: &mut [u8], field: &[u8]) -> u8 {
    let (start, length) = (map.as_mut_ptr(), map.len());
    // SAFETY: the call reads the field and reads and writes the map, each within its length. The map is borrowed alone,
    // so the two do not overlap.
    unsafe { feed_map_take(start, length, field.as_ptr(), field.len()) }
}

/// (number, place, length, announced, frames, unknown)
pub fn show(map: &[u8], id: u8, count: u8) -> (u8, usize, usize, u8, u8, u8) {
    let (mut at, mut length) = (MARK_SIZE, MARK_SIZE);
    let (mut announced, mut frames, mut unknown) = (MARK, MARK, MARK);
    // SAFETY: the call reads the map within its length and writes only these five values.
    let number = unsafe {
        feed_map_show(
            map.as_ptr(),
            map.len(),
            id,
            count,
            &mut at,
            &mut length,
            &mut announced,
            &mut frames,
            &mut unknown,
        )
    };
    (number, at, length, announced, frames, unknown)
}

/// (number, place, length, whole)
pub fn heard(map: &[u8], id: u8, count: u8) -> (u8, usize, usize, u8) {
    let (mut at, mut length, mut whole) = (MARK_SIZE, MARK_SIZE, MARK);
    // SAFETY: the call reads the map within its length and writes only these three values.
    let number = unsafe {
        feed_map_heard(
            map.as_ptr(),
            map.len(),
            id,
            count,
            &mut at,
            &mut length,
            &mut whole,
        )
    };
    (number, at, length, whole)
}

/// (number, row, unbroken, components)
pub fn known(map: &[u8], count: u8) -> (u8, u8, u8, usize) {
    let (mut row, mut unbroken, mut components) = (MARK, MARK, MARK_SIZE);
    // SAFETY: the call reads the map within its length and writes only these three values.
    let number = unsafe {
        feed_map_known(
            map.as_ptr(),
            map.len(),
            count,
            &mut row,
            &mut unbroken,
            &mut components,
        )
    };
    (number, row, unbroken, components)
}

pub fn list(map: &[u8], count: u8, out: &mut [u8]) -> u8 {
    let (room, room_length) = (out.as_mut_ptr(), out.len());
    // SAFETY: the call reads the map and writes the output, each within its length. The output is borrowed alone, so
    // the two do not overlap.
    unsafe { feed_map_list(map.as_ptr(), map.len(), count, room, room_length) }
}

/// (number, count, flag, id, tdms, links)
pub fn read(field: &[u8]) -> (u8, u8, u8, u8, u64, u8) {
    let (mut count, mut flag, mut id, mut links) = (MARK, MARK, MARK, MARK);
    let mut tdms = MARK64;
    // SAFETY: the call reads the field within its length and writes only these five values.
    let number = unsafe {
        feed_map_read(
            field.as_ptr(),
            field.len(),
            &mut count,
            &mut flag,
            &mut id,
            &mut tdms,
            &mut links,
        )
    };
    (number, count, flag, id, tdms, links)
}

pub fn write(count: u8, flag: u8, id: u8, tdms: u64, links: u8, out: &mut [u8]) -> u8 {
    let (room, room_length) = (out.as_mut_ptr(), out.len());
    // SAFETY: the call writes the output within its length, and it is borrowed alone.
    unsafe { feed_map_write(count, flag, id, tdms, links, room, room_length) }
}

/// (number, tdms) of FLN1, LLN1, FLN2, LLN2, FCP and LCP.
pub fn pack(numbers: [u32; 6]) -> (u8, u64) {
    let [fln1, lln1, fln2, lln2, fcp, lcp] = numbers;
    let mut tdms = MARK64;
    // SAFETY: the call writes only this value.
    let number = unsafe { feed_map_pack(fln1, lln1, fln2, lln2, fcp, lcp, &mut tdms) };
    (number, tdms)
}

/// (number, FLN1 and so on)
pub fn unpack(tdms: u64) -> (u8, [u32; 6]) {
    let mut numbers = [MARK32; 6];
    let [fln1, lln1, fln2, lln2, fcp, lcp] = &mut numbers;
    // SAFETY: the call writes only these six values.
    let number = unsafe { feed_map_unpack(tdms, fln1, lln1, fln2, lln2, fcp, lcp) };
    (number, numbers)
}
