//! The state where it lies: places in a slot's bytes, and the test that it is good.

use super::MOST_FLIPS;
use crate::slot::{ROOM, SLOT};
use crate::table::{SETTING_AT, SLOTS, STATE};

const ADDRESS: usize = 2 * ROOM;
const LIMIT: usize = ADDRESS + 4;
const AGE: usize = LIMIT + 4;
const TAIL: usize = AGE + 4;

/// The last four bytes of a slot as a number: protection, awaited index, mark of a whole group, gap mark.
pub const PROTECTED: u32 = 0x0000_0001;
pub const AWAITED: u32 = 0x0000_0300;
pub const AWAITED_SHIFT: u32 = 8;
pub const WHOLE: u32 = 0x0001_0000;
pub const GAP: u32 = 0x0100_0000;
/// No other bit may be set there.
const TAIL_BITS: u32 = PROTECTED | AWAITED | WHOLE | GAP;

pub type Slot = [u8; SLOT];

/// The address of every slot, 0 of a free one; nothing if the state is not good.
#[inline]
pub fn addresses(state: &[u8; STATE]) -> Option<[u32; SLOTS]> {
    if setting(state) > MOST_FLIPS {
        return None;
    }
    let (slots, _) = state.as_chunks::<SLOT>();
    let mut addresses = [0; SLOTS];
    let mut seen = [0u64; 16];
    for (slot, known) in slots.iter().zip(&mut addresses) {
        let address = number(slot, ADDRESS);
        if address == 0 {
            if !is_zero(slot) {
                return None;
            }
            continue;
        }
        if !within_bounds(slot, address) {
            return None;
        }
        let (word, bit) = ((address / 64) as usize, 1 << (address % 64));
        if seen[word] & bit != 0 {
            return None;
        }
        seen[word] |= bit;
        *known = address;
    }
    Some(addresses)
}

/// The greatest number of flips that is put right in a packet's header.
pub fn setting(state: &[u8; STATE]) -> u32 {
    state[SETTING_AT].into()
}

fn within_bounds(slot: &Slot, address: u32) -> bool {
    address <= 1022
        && number(slot, LIMIT).wrapping_sub(1) < 1500
        && number(slot, AGE) <= 1500
        && tail(slot) & !TAIL_BITS == 0
}

/// No early end: the compiler makes a few wide steps of it.
fn is_zero(slot: &Slot) -> bool {
    slot.iter().fold(0, |sum, byte| sum | byte) == 0
}

fn number(slot: &Slot, at: usize) -> u32 {
    u32::from_le_bytes([slot[at], slot[at + 1], slot[at + 2], slot[at + 3]])
}

pub fn tail(slot: &Slot) -> u32 {
    number(slot, TAIL)
}

pub fn set_tail(slot: &mut Slot, tail: u32) {
    slot[TAIL..].copy_from_slice(&tail.to_le_bytes());
}

pub fn clear_age(slot: &mut Slot) {
    slot[AGE..TAIL].fill(0);
}
