//! What becomes of packets on their way. No type byte has more than two flips (document 02, Ask 6), so that data stays data and
//! a control packet a control packet.

use second::fast;
use second::golay::MOST_FLIPS;
use second::image::{HEADER_AT, TYPE_AT, USEFUL_AT};
use second::samples::{flip, flip_some, word_at, WORDS};
use second::xorshift::Xorshift;

/// What was done to a packet, as far as the bookkeeping has to know it.
#[derive(Clone, Copy, PartialEq, Eq)]
pub enum Fate {
    /// It does not come, or is refused with 20 or 21, or with 49 by the setting in force, or is read as an address that
    /// nobody follows.
    Lost,
    /// It comes, and a word of it cannot be read. Plain data has no words.
    Unreadable,
    /// It comes, with no more flips than can be put right; in its header, than are put right at the setting in force.
    Readable,
}

/// How many of sixteen packets are lost and how many unreadable.
pub struct Channel {
    lost: usize,
    unreadable: usize,
}

impl Channel {
    pub fn new(random: &mut Xorshift) -> Channel {
        Channel {
            lost: random.below(6),
            unreadable: random.below(4),
        }
    }

    /// A packet's fate, before it is sent. Whether one more may be lost is the line's to say.
    pub fn fate(&self, random: &mut Xorshift, may_be_lost: bool, protected: bool) -> Fate {
        let number = random.below(16);
        if number < self.lost && may_be_lost {
            Fate::Lost
        } else if protected && (6..6 + self.unreadable).contains(&number) {
            Fate::Unreadable
        } else {
            Fate::Readable
        }
    }
}

/// What comes of an image that has this fate, at a setting; nothing if it does not come at all.
pub fn carried(
    random: &mut Xorshift,
    fate: Fate,
    setting: u32,
    protected: bool,
    image: &[u8],
) -> Option<Vec<u8>> {
    let mut image = image.to_vec();
    match fate {
        Fate::Lost => return lose(random, setting, image),
        Fate::Unreadable => {
            harm(random, setting, protected, &mut image);
            spoil(random, &mut image);
        }
        Fate::Readable => harm(random, setting, protected, &mut image),
    }
    Some(image)
}

fn lose(random: &mut Xorshift, setting: u32, mut image: Vec<u8>) -> Option<Vec<u8>> {
    match random.below(5) {
        0 => image.truncate(random.below(94)),
        1 => flip(&mut image, USEFUL_AT.end),
        2 => return stray(random, setting, image),
        3 if setting < MOST_FLIPS => go_beyond(random, setting, &mut image),
        _ => return None,
    }
    Some(image)
}

/// More flips than the code puts right, so that it reads as another header, unless the setting refuses that: then it may
/// be near to any address, a line's too. Otherwise it must not be a line's, and all lines have lower addresses than these.
fn stray(random: &mut Xorshift, setting: u32, mut image: Vec<u8>) -> Option<Vec<u8>> {
    let count = 4 + random.below(3);
    flip_some(random, &mut image, HEADER_AT, count);
    let n = u32::from_le_bytes([image[0], image[1], image[2] & 0x7F, 0]);
    let (number, address, _, _) = fast::read_header_within(n, setting);
    (number == 49 || address > 1000).then_some(image)
}

/// More flips in the header than the setting allows, and no more than the code could put right: of no slot, though the
/// address is plain to see.
pub fn go_beyond(random: &mut Xorshift, setting: u32, image: &mut [u8]) {
    let more = 1 + random.below((MOST_FLIPS - setting) as usize);
    flip_some(random, image, HEADER_AT, setting as usize + more);
}

/// Flips that can be put right in the header and in the type byte.
pub fn harm_front(random: &mut Xorshift, setting: u32, image: &mut [u8]) {
    let (header, kind) = (random.below(1 + setting as usize), random.below(3));
    flip_some(random, image, HEADER_AT, header);
    flip_some(random, image, TYPE_AT, kind);
}

/// Flips that can be put right. In plain data none can.
fn harm(random: &mut Xorshift, setting: u32, protected: bool, image: &mut [u8]) {
    harm_front(random, setting, image);
    for place in 0..WORDS {
        if protected {
            let count = random.below(4);
            flip_some(random, image, word_at(place), count);
        }
    }
}

/// More flips in a word, until it cannot be read.
fn spoil(random: &mut Xorshift, image: &mut [u8]) {
    let place = word_at(random.below(WORDS));
    while fast::read_word(word(image, place.start)).0 == 0 {
        flip_some(random, image, place.clone(), 1);
    }
}

fn word(image: &[u8], bit: usize) -> u32 {
    let at = bit / 8;
    let four = [image[at], image[at + 1], image[at + 2], image[at + 3]];
    u32::from_le_bytes(four) >> (bit % 8) & 0xFF_FFFF
}
