//! The packet call and the group writer on the lent bytes themselves.

use super::state::{self, Slot, AWAITED, AWAITED_SHIFT, GAP, WHOLE as HAS_WHOLE};
use super::tables::WORDS;
use super::{header, take_plain, take_words, type_number};
use crate::group::{Detailed, IMAGES};
use crate::image::{IMAGE, PROTECTED, USEFUL};
use crate::numbers::{
    ADDRESS, DONE, HEADER_BEYOND, HELD, LENGTH, NOT_FOLLOWED, NOT_GOOD, OUT_OF_STEP, PROTECTION,
    SPARE_BIT, STARTED, TYPE_CONTROL, WHOLE, WORD_UNREADABLE,
};
use crate::slot::{ROOM, SLOT};
use crate::table::STATE;

/// As `crate::group::packet`.
pub fn packet(state: &mut [u8], image: &[u8]) -> u8 {
    packet_detail(state, image).number
}

/// As `crate::group::packet_detail`.
#[inline]
pub fn packet_detail(state: &mut [u8], image: &[u8]) -> Detailed {
    let Ok(state) = <&mut [u8; STATE]>::try_from(state) else {
        return LENGTH.into();
    };
    let Ok(image) = <&[u8; IMAGE]>::try_from(image) else {
        return LENGTH.into();
    };
    let Some(addresses) = state::addresses(state) else {
        return NOT_GOOD.into();
    };
    if image[IMAGE - 1] >> 7 != 0 {
        return SPARE_BIT.into();
    }
    let (address, index, flips) = header(image);
    if flips > state::setting(state) {
        return HEADER_BEYOND.into();
    }
    // Free slots have address 0 too.
    let place = addresses.iter().position(|&other| other == address);
    let Some(place) = place.filter(|_| address != 0) else {
        return NOT_FOLLOWED.into();
    };
    let (slots, _) = state.as_chunks_mut::<SLOT>();
    arrive(&mut slots[place], image, index)
}

fn arrive(slot: &mut Slot, image: &[u8; IMAGE], index: usize) -> Detailed {
    match type_number(image) {
        DONE => {}
        // The one refusal here that leaves the slot as it is.
        TYPE_CONTROL => return TYPE_CONTROL.into(),
        number => return dropped(slot, number, 0, 0),
    }
    if state::tail(slot) & state::PROTECTED == 0 {
        step(slot, index, |bytes: &mut [u8; USEFUL]| {
            take_plain(image, bytes);
            None
        })
    } else {
        step(slot, index, |data: &mut [u8; PROTECTED]| {
            take_words(image, data)
        })
    }
}

/// Section 4's table. The packet's bytes are read into their place in the room: where they cannot be read, the room is
/// cleared anyway. Reading gives the place of the first word that cannot be read.
#[inline(always)]
fn step<const N: usize>(
    slot: &mut Slot,
    index: usize,
    read: impl Fn(&mut [u8; N]) -> Option<u8>,
) -> Detailed {
    let tail = state::tail(slot);
    let awaited = ((tail & AWAITED) >> AWAITED_SHIFT) as usize;
    let in_step = index == 0 || index == awaited;
    let (parts, _) = slot[..4 * N].as_chunks_mut::<N>();
    if let Some(place) = read(&mut parts[index]) {
        return dropped(slot, WORD_UNREADABLE, place, 0);
    }
    if !in_step {
        return dropped(slot, OUT_OF_STEP, awaited as u8, index as u8);
    }
    moved::<N>(slot, index, tail).into()
}

/// A packet in step, whose bytes are in the room: the rows of the table that take it.
#[inline(always)]
fn moved<const N: usize>(slot: &mut Slot, index: usize, tail: u32) -> u8 {
    let kept = tail & !AWAITED;
    match index {
        0 => {
            slot[N..ROOM].fill(0);
            let gap = if tail & AWAITED == 0 { 0 } else { GAP };
            state::set_tail(slot, kept | gap | 1 << AWAITED_SHIFT);
            STARTED
        }
        3 => {
            let (unfinished, rest) = slot.split_at_mut(ROOM);
            rest[..4 * N].copy_from_slice(&unfinished[..4 * N]);
            rest[4 * N..ROOM].fill(0);
            unfinished.fill(0);
            state::clear_age(slot);
            state::set_tail(slot, kept & !GAP | HAS_WHOLE);
            WHOLE
        }
        _ => {
            state::set_tail(slot, kept | (index as u32 + 1) << AWAITED_SHIFT);
            HELD
        }
    }
}

/// The group under way is given up, and the gap marked.
fn dropped(slot: &mut Slot, number: u8, awaited_or_place: u8, came: u8) -> Detailed {
    slot[..ROOM].fill(0);
    let tail = state::tail(slot);
    state::set_tail(slot, tail & !AWAITED | GAP);
    Detailed {
        number,
        awaited_or_place,
        came,
    }
}

/// As `crate::group::write_group`.
pub fn write_group(address: u32, protection: u32, message: &[u8], output: &mut [u8]) -> u8 {
    if address.wrapping_sub(1) >= 1022 {
        return ADDRESS;
    }
    if protection > 1 {
        return PROTECTION;
    }
    let length = if protection == 1 { PROTECTED } else { USEFUL };
    if message.len() != 4 * length || output.len() != IMAGES {
        return LENGTH;
    }
    let (images, _) = output.as_chunks_mut::<IMAGE>();
    for ((index, image), part) in (0..).zip(images).zip(message.chunks_exact(length)) {
        let header = WORDS[(address | index << 10) as usize] & 0x7F_FFFF;
        image[..3].copy_from_slice(&header.to_le_bytes()[..3]);
        match part.try_into() {
            Ok(useful) => put(useful, image),
            Err(_) => put(&words(part), image),
        }
    }
    DONE
}

/// Three bytes give two words.
fn words(data: &[u8]) -> [u8; USEFUL] {
    let mut useful = [0; USEFUL];
    for (three, six) in data.chunks_exact(3).zip(useful.chunks_exact_mut(6)) {
        let both = u32::from_le_bytes([three[0], three[1], three[2], 0]);
        let low = u64::from(WORDS[(both & 0xFFF) as usize]);
        let high = u64::from(WORDS[(both >> 12) as usize]);
        six.copy_from_slice(&(low | high << 24).to_le_bytes()[..6]);
    }
    useful
}

/// Behind a header whose highest bit is the type byte's lowest, with type 00 and the spare bit 0.
fn put(useful: &[u8; USEFUL], image: &mut [u8; IMAGE]) {
    image[3] = useful[0] << 7;
    for j in 1..USEFUL {
        image[3 + j] = useful[j - 1] >> 1 | useful[j] << 7;
    }
    image[IMAGE - 1] = useful[USEFUL - 1] >> 1;
}
