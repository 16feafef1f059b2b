//! Calls on a state as values, so that two implementations can be given the same ones; and histories of them.

use super::{damage, flip, flip_some, word_at, WORDS};
use crate::fast;
use crate::group::{self, Detailed};
use crate::image::{self, USEFUL_AT};
use crate::slot::Slot;
use crate::table::{self, Lent, Table};
use crate::types::{DATA, TYPES};
use crate::xorshift::Xorshift;

#[derive(Clone, Debug, PartialEq, Eq)]
pub enum Call {
    Start,
    /// Address, protection, limit.
    Follow(u32, u32, u32),
    Leave(u32),
    Packet(Vec<u8>),
    SubframeEnd,
    /// The greatest number of flips to put right in a packet's header.
    SetHeaderFlips(u32),
    Ask(u32),
    /// Address and notice.
    BoardText(u32, Vec<u8>),
}

/// A call's number; what a packet's carries; and the part that ask and board text hand back: of which buffer, from where, how
/// long.
#[derive(Debug, PartialEq, Eq)]
pub struct Answer {
    pub number: u8,
    /// The whole answer of a packet, of which the number is a part. Other calls have none.
    pub packet: Option<Detailed>,
    pub part: Option<(Lent, usize, usize)>,
}

impl From<u8> for Answer {
    fn from(number: u8) -> Answer {
        Answer {
            number,
            packet: None,
            part: None,
        }
    }
}

impl From<Detailed> for Answer {
    fn from(answer: Detailed) -> Answer {
        Answer {
            number: answer.number,
            packet: Some(answer),
            part: None,
        }
    }
}

impl From<(u8, Lent, usize, usize)> for Answer {
    fn from((number, lent, at, length): (u8, Lent, usize, usize)) -> Answer {
        Answer {
            number,
            packet: None,
            part: Some((lent, at, length)),
        }
    }
}

impl From<(u8, usize, usize)> for Answer {
    fn from((number, at, length): (u8, usize, usize)) -> Answer {
        (number, Lent::State, at, length).into()
    }
}

impl Call {
    /// Makes the call, as this crate understands it.
    pub fn make(&self, state: &mut [u8]) -> Answer {
        match self {
            Call::Start => table::start(state).into(),
            &Call::Follow(address, protection, limit) => {
                table::follow(state, address, protection, limit).into()
            }
            &Call::Leave(address) => table::leave(state, address).into(),
            Call::Packet(image) => group::packet_detail(state, image).into(),
            Call::SubframeEnd => table::subframe_end(state).into(),
            &Call::SetHeaderFlips(most) => table::set_header_flips(state, most).into(),
            &Call::Ask(address) => table::ask(state, address).into(),
            Call::BoardText(address, notice) => table::board_text(state, *address, notice).into(),
        }
    }

    /// The same with the fast packet call.
    pub fn make_fast(&self, state: &mut [u8]) -> Answer {
        match self {
            Call::Packet(image) => fast::packet_detail(state, image).into(),
            _ => self.make(state),
        }
    }
}

/// A call of any sort that has something to do in this state, mostly; a history is made of these.
pub fn any(random: &mut Xorshift, state: &[u8]) -> Call {
    let table = Table::decode(state);
    let used: Vec<&Slot> = table.iter().flat_map(Table::used).collect();
    let address = address(random, &used);
    match random.below(1_000) {
        0 => Call::Start,
        1..=50 => Call::Follow(address, protection(random), limit(random)),
        51..=80 => Call::Follow(random.below(1024) as u32, protection(random), limit(random)),
        81..=95 => Call::Leave(address),
        96..=170 => Call::SubframeEnd,
        171..=250 => Call::Ask(address),
        251..=300 => Call::BoardText(address, notice(random)),
        301..=320 => Call::SetHeaderFlips(setting(random)),
        _ => Call::Packet(packet(random, &used)),
    }
}

/// An address that is followed, or one at an edge, or any.
fn address(random: &mut Xorshift, used: &[&Slot]) -> u32 {
    let followed = choose(random, used).map(|slot| slot.address);
    match random.below(8) {
        0 => [0, 1, 1022, 1023, 1024, u32::MAX][random.below(6)],
        1 => random.below(1024) as u32,
        2 => followed.unwrap_or(17) | 1 << (10 + random.below(22)),
        _ => followed.unwrap_or(17),
    }
}

fn protection(random: &mut Xorshift) -> u32 {
    match random.below(16) {
        0 => [2, 255, 256, 257, u32::MAX][random.below(5)],
        _ => random.below(2) as u32,
    }
}

/// Short ones, so that groups grow stale.
fn limit(random: &mut Xorshift) -> u32 {
    match random.below(8) {
        0 => [0, 1500, 1501, 65_537, u32::MAX][random.below(5)],
        _ => 1 + random.below(12) as u32,
    }
}

/// Numbers that would be right once their high bits are cut off, too.
fn setting(random: &mut Xorshift) -> u32 {
    match random.below(8) {
        0 => [4, 5, 255, 256, 65_537, u32::MAX][random.below(6)],
        _ => random.below(4) as u32,
    }
}

fn notice(random: &mut Xorshift) -> Vec<u8> {
    let length = random.below(24);
    random.bytes::<24>()[..length].to_vec()
}

/// An image for one of these slots, mostly the one that it awaits, sound or hurt.
pub fn packet(random: &mut Xorshift, used: &[&Slot]) -> Vec<u8> {
    let any_index = random.below(4) as u8;
    let (address, mut protected, mut index) = match choose(random, used) {
        Some(slot) if random.below(16) != 0 => (slot.address, slot.protected, slot.awaited),
        _ => (random.below(1024) as u32, random.chance(), any_index),
    };
    if random.below(8) == 0 {
        index = any_index;
    }
    if random.below(32) == 0 {
        protected = !protected;
    }
    let kind = match random.below(16) {
        0 => TYPES[random.below(4)],
        _ => DATA,
    };
    let useful = if protected {
        image::protect(&random.bytes())
    } else {
        random.bytes()
    };
    let mut image = image::write_image(address, index.into(), kind, &useful).to_vec();
    hurt(random, &mut image);
    image
}

/// Some flips, more often few than many, and seldom a spare bit or a wrong length.
fn hurt(random: &mut Xorshift, image: &mut Vec<u8>) {
    let (header, kind) = (flips(random, 3), flips(random, 2));
    damage(random, image, header, kind, 0);
    let in_words = random.below(4);
    for place in 0..WORDS {
        let count = random.below(1 + in_words);
        flip_some(random, image, word_at(place), count);
    }
    if random.below(16) == 0 {
        let (place, count) = (random.below(WORDS), 1 + random.below(6));
        flip_some(random, image, word_at(place), count);
    }
    if random.below(32) == 0 {
        flip(image, USEFUL_AT.end);
    }
    if random.below(32) == 0 {
        image.resize([0, 1, 93, 95, 188][random.below(5)], 0);
    }
}

/// None mostly; as many as can be put right; seldom up to six.
fn flips(random: &mut Xorshift, most: usize) -> usize {
    match random.below(16) {
        0 => random.below(7),
        1..=5 => random.below(most + 1),
        _ => 0,
    }
}

fn choose<'a>(random: &mut Xorshift, used: &[&'a Slot]) -> Option<&'a Slot> {
    if used.is_empty() {
        return None;
    }
    Some(used[random.below(used.len())])
}
