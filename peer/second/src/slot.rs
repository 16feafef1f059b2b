//! A used slot of the state, taken out of its bytes and put back.
//!
//! The places are those of docs/LAYOUT.md. They stand here as an order of fields: no byte is nobody's, so a slot that
//! was read and put back has the bytes that it had, whatever they were.

use crate::image::{PROTECTED, USEFUL};
use std::ops::RangeInclusive;

/// Bytes of a slot, and of each of its two rooms.
pub const SLOT: usize = 736;
pub const ROOM: usize = 360;
/// A group is always so many packets.
pub const PACKETS: usize = 4;

pub const ADDRESSES: RangeInclusive<u32> = 1..=1022;
pub const LIMITS: RangeInclusive<u32> = 1..=MOST_AGE;
pub const MOST_AGE: u32 = 1500;
const AWAITED: RangeInclusive<u8> = 0..=3;

#[derive(Clone, Debug, PartialEq, Eq)]
pub struct Slot {
    /// The unfinished group.
    pub unfinished: [u8; ROOM],
    /// The last whole group, if `whole` says that there is one.
    pub group: [u8; ROOM],
    pub address: u32,
    pub limit: u32,
    pub age: u32,
    pub protected: bool,
    /// The index of the packet that the unfinished group waits for; 0 where there is none.
    pub awaited: u8,
    pub whole: bool,
    pub gap: bool,
}

impl Slot {
    /// As follow makes it.
    pub fn new(address: u32, protected: bool, limit: u32) -> Slot {
        Slot {
            unfinished: [0; ROOM],
            group: [0; ROOM],
            address,
            limit,
            age: 0,
            protected,
            awaited: 0,
            whole: false,
            gap: false,
        }
    }

    /// What 736 bytes hold, if every field is within its bounds. The rooms are not looked at.
    pub fn decode(bytes: &[u8]) -> Option<Slot> {
        let mut rest = bytes;
        let slot = Slot {
            unfinished: take(&mut rest),
            group: take(&mut rest),
            address: within(ADDRESSES, number(&mut rest))?,
            limit: within(LIMITS, number(&mut rest))?,
            age: within(0..=MOST_AGE, number(&mut rest))?,
            protected: mark(&mut rest)?,
            awaited: within(AWAITED, byte(&mut rest))?,
            whole: mark(&mut rest)?,
            gap: mark(&mut rest)?,
        };
        assert!(rest.is_empty(), "736 bytes");
        Some(slot)
    }

    pub fn encode(&self) -> Vec<u8> {
        let numbers = [self.address, self.limit, self.age];
        let mut bytes = self.unfinished.to_vec();
        bytes.extend(self.group);
        bytes.extend(numbers.iter().flat_map(|number| number.to_le_bytes()));
        bytes.push(self.protected.into());
        bytes.push(self.awaited);
        bytes.push(self.whole.into());
        bytes.push(self.gap.into());
        bytes
    }

    /// How many bytes a packet brings, and a group.
    pub fn packet_length(&self) -> usize {
        packet_length(self.protected)
    }

    pub fn group_length(&self) -> usize {
        group_length(self.protected)
    }
}

pub fn packet_length(protected: bool) -> usize {
    if protected {
        PROTECTED
    } else {
        USEFUL
    }
}

pub fn group_length(protected: bool) -> usize {
    PACKETS * packet_length(protected)
}

/// The next bytes of a row, which is then shorter by them.
fn take<const N: usize>(rest: &mut &[u8]) -> [u8; N] {
    let (these, others) = rest.split_first_chunk().expect("736 bytes");
    *rest = others;
    *these
}

fn number(rest: &mut &[u8]) -> u32 {
    u32::from_le_bytes(take(rest))
}

fn byte(rest: &mut &[u8]) -> u8 {
    let [byte] = take(rest);
    byte
}

fn mark(rest: &mut &[u8]) -> Option<bool> {
    within(0..=1, byte(rest)).map(|mark| mark == 1)
}

fn within<T: PartialOrd>(bounds: RangeInclusive<T>, value: T) -> Option<T> {
    bounds.contains(&value).then_some(value)
}

#[cfg(test)]
mod tests {
    use super::*;

    /// Each field in its place of docs/LAYOUT.md.
    #[test]
    fn places() {
        let slot = Slot {
            unfinished: [0x11; ROOM],
            group: [0x22; ROOM],
            address: 0x0123,
            limit: 0x0456,
            age: 0x0578,
            protected: true,
            awaited: 3,
            whole: true,
            gap: true,
        };
        let bytes = slot.encode();
        assert_eq!(bytes.len(), SLOT);
        assert_eq!(bytes[..360], [0x11; 360]);
        assert_eq!(bytes[360..720], [0x22; 360]);
        assert_eq!(bytes[720..724], [0x23, 0x01, 0, 0]);
        assert_eq!(bytes[724..728], [0x56, 0x04, 0, 0]);
        assert_eq!(bytes[728..732], [0x78, 0x05, 0, 0]);
        assert_eq!(bytes[732..], [1, 3, 1, 1]);
        assert_eq!(Slot::decode(&bytes), Some(slot));
    }
}
