//! The numbers given back.

pub const DONE: u8 = 0;
/// A packet began a group.
pub const STARTED: u8 = 1;
/// A packet joined a group.
pub const HELD: u8 = 2;
/// A packet made a group whole.
pub const WHOLE: u8 = 3;
/// No whole group yet.
pub const NOTHING: u8 = 4;
pub const FRESH: u8 = 5;
/// There was a gap after the group.
pub const DOUBTFUL: u8 = 6;
/// The group's age has reached its limit.
pub const STALE: u8 = 7;
/// A lent length is wrong.
pub const LENGTH: u8 = 20;
/// The place of bit 751 of an image is set.
pub const SPARE_BIT: u8 = 21;
/// An address is not 1 to 1,022.
pub const ADDRESS: u8 = 22;
/// A protection is not 0 or 1.
pub const PROTECTION: u8 = 23;
/// A limit is not 1 to 1,500.
pub const LIMIT: u8 = 24;
/// The address is followed already.
pub const FOLLOWED: u8 = 25;
/// No slot is free.
pub const FULL: u8 = 26;
/// The address is not followed.
pub const NOT_FOLLOWED: u8 = 27;
/// The type byte is not within two flips of a type.
pub const TYPE_UNREADABLE: u8 = 28;
/// The type is 3F: a control packet.
pub const TYPE_CONTROL: u8 = 29;
/// The type is F8.
pub const TYPE_SCRAMBLED: u8 = 30;
/// A (24,12) word has no code word within three flips.
pub const WORD_UNREADABLE: u8 = 31;
/// The packet's index is not the one awaited, and not 0.
pub const OUT_OF_STEP: u8 = 32;
/// A bare number has more bits than its field.
pub const TOO_LARGE: u8 = 33;
/// The state is not good.
pub const NOT_GOOD: u8 = 34;
/// A record is bad, or the input ends inside it.
pub const BAD_RECORD: u8 = 35;
/// The first of a pair of lines or clock periods is behind its last, or the last alone is all ones.
pub const BAD_PAIR: u8 = 44;
/// The component is not in its set, and the set is full.
pub const TOO_MANY: u8 = 45;
/// Of the structure asked for, only a part is known.
pub const UNFINISHED: u8 = 46;
/// The type is C7.
pub const TYPE_RESERVED: u8 = 47;
/// A setting is above 3.
pub const SETTING: u8 = 48;
/// A header is beyond the setting: the nearest word needs more flips than that allows.
pub const HEADER_BEYOND: u8 = 49;

/// Refuses with a number unless something holds. A call is a row of these, in the order of its refusals.
pub fn refuse_unless(holds: bool, number: u8) -> Result<(), u8> {
    if holds {
        Ok(())
    } else {
        Err(number)
    }
}

/// The number of a call that has nothing to answer but that it was done.
pub fn done(result: Result<(), u8>) -> u8 {
    result.err().unwrap_or(DONE)
}
