//! States made by hand: good ones, which calls alone need never lead to, and bad ones; and one as start makes it.

use crate::golay::MOST_FLIPS;
use crate::numbers::DONE;
use crate::slot::{Slot, ADDRESSES, MOST_AGE, ROOM, SLOT};
use crate::table::{start, SETTING_AT, SLOTS, STATE};
use crate::xorshift::Xorshift;

/// Where a slot's fields stand, as docs/LAYOUT.md has them.
const ADDRESS: usize = 720;
const LIMIT: usize = 724;
const AGE: usize = 728;
const PROTECTION: usize = 732;
const AWAITED: usize = 733;
const WHOLE: usize = 734;
const GAP: usize = 735;

/// A state that was started: nothing is followed, and the setting is 3. Bytes of 0 alone have another.
pub fn started() -> Vec<u8> {
    let mut state = vec![0; STATE];
    assert_eq!(start(&mut state), DONE);
    state
}

/// A good state. Fields are anywhere within their bounds, and the rooms hold anything.
pub fn good(random: &mut Xorshift) -> Vec<u8> {
    some_used(random, None)
}

/// A good state in which a certain slot is used, if there is one that has to be.
fn some_used(random: &mut Xorshift, certain: Option<usize>) -> Vec<u8> {
    let most = random.below(SLOTS + 1);
    let addresses = addresses(random);
    let mut state = vec![0; STATE];
    for (place, bytes) in state.chunks_exact_mut(SLOT).enumerate() {
        if random.below(SLOTS) < most || certain == Some(place) {
            bytes.copy_from_slice(&slot(random, addresses[place]).encode());
        }
    }
    state[SETTING_AT] = random.below(1 + MOST_FLIPS as usize) as u8;
    state
}

/// A used slot that may contradict itself: a group awaited in an empty room, dirt behind a group, age without a group.
pub fn slot(random: &mut Xorshift, address: u32) -> Slot {
    Slot {
        unfinished: room(random),
        group: room(random),
        address,
        limit: between(random, 1, MOST_AGE),
        age: between(random, 0, MOST_AGE),
        protected: random.chance(),
        awaited: random.below(4) as u8,
        whole: random.chance(),
        gap: random.chance(),
    }
}

/// A state that is not good, by one fault or by many.
pub fn bad(random: &mut Xorshift) -> Vec<u8> {
    let place = random.below(SLOTS);
    let other = (place + 1 + random.below(SLOTS - 1)) % SLOTS;
    let mut state = some_used(random, Some(place));
    let slot = &mut state[SLOT * place..][..SLOT];
    match random.below(12) {
        0 => stray_byte(random, slot),
        1 => set(slot, ADDRESS, [0, 1023, 1024][random.below(3)]),
        2 => set(slot, ADDRESS, wide(random, 17)),
        3 => set(slot, LIMIT, [0, 1501, 0x8000_0001][random.below(3)]),
        4 => set(slot, LIMIT, wide(random, 1)),
        5 => set(slot, AGE, [1501, 0x1_0000, u32::MAX][random.below(3)]),
        6 => slot[PROTECTION] = more_than(random, 1),
        7 => slot[AWAITED] = more_than(random, 3),
        8 => slot[[WHOLE, GAP][random.below(2)]] = more_than(random, 1),
        9 => state.copy_within(SLOT * place..SLOT * (place + 1), SLOT * other),
        10 => state[SETTING_AT] = [4, 255, more_than(random, 3)][random.below(3)],
        _ => state = (0..STATE).map(|_| random.below(256) as u8).collect(),
    }
    state
}

/// A slot that would be free but for one byte. No used slot has only one byte that is not 0.
fn stray_byte(random: &mut Xorshift, slot: &mut [u8]) {
    slot.fill(0);
    // Any byte, but more often the rooms' ends and the head's bytes than their share.
    let ends = [0, ROOM - 1, ROOM, 2 * ROOM - 1, ADDRESS, SLOT - 1];
    let place = match random.below(3) {
        0 => ends[random.below(ends.len())],
        1 => ADDRESS + random.below(SLOT - ADDRESS),
        _ => random.below(SLOT),
    };
    slot[place] = more_than(random, 0);
}

/// Different addresses, one for each slot.
fn addresses(random: &mut Xorshift) -> Vec<u32> {
    let mut all: Vec<u32> = ADDRESSES.collect();
    let mut some = vec![1, 1022];
    all.retain(|address| !some.contains(address));
    while some.len() < SLOTS {
        some.push(all.swap_remove(random.below(all.len())));
    }
    let first = random.below(SLOTS);
    some.rotate_left(first);
    some
}

fn room(random: &mut Xorshift) -> [u8; ROOM] {
    let mut room = [0; ROOM];
    let filled = [0, 45, 90, 180, 270, 359, ROOM, ROOM][random.below(8)];
    let noise: [u8; ROOM] = random.bytes();
    room[..filled].copy_from_slice(&noise[..filled]);
    room
}

/// A number within bounds; the bounds themselves come often.
fn between(random: &mut Xorshift, low: u32, high: u32) -> u32 {
    match random.below(6) {
        0 => low,
        1 => high,
        2 => low + 1,
        3 => high - 1,
        _ => low + random.below((high - low) as usize) as u32,
    }
}

fn more_than(random: &mut Xorshift, bound: u8) -> u8 {
    bound + 1 + random.below(usize::from(u8::MAX - bound)) as u8
}

/// A number that is right once its high bits are cut off.
fn wide(random: &mut Xorshift, number: u32) -> u32 {
    number | 1 << (16 + random.below(16))
}

fn set(slot: &mut [u8], at: usize, number: u32) {
    slot[at..at + 4].copy_from_slice(&number.to_le_bytes());
}
