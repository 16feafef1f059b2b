//! Why a call was refused.

use second::group::Detailed;
use std::fmt;

/// Why a call was refused. Which refusals a call has stands at the call.
#[derive(Clone, Copy, Debug, PartialEq, Eq)]
pub enum Refusal {
    Length,
    SpareBit,
    Address,
    Protection,
    Limit,
    Followed,
    Full,
    NotFollowed,
    TypeUnreadable,
    /// A control packet (type 3F). Nothing is wrong with it and nothing is lost: the group under way goes on behind it.
    ControlPacket,
    /// Type C7.
    TypeReserved,
    Scrambled,
    /// Of the thirty words of a protected packet, the first that cannot be read is the one at this place, 0 to 29.
    WordUnreadable {
        place: u8,
    },
    /// The index that was awaited when the packet came, and the packet's own.
    OutOfStep {
        awaited: u8,
        came: u8,
    },
    TooLarge,
    NotGood,
    BadPair,
    TooManyComponents,
    Unfinished,
    Setting,
    HeaderBeyond,
    /// A number that the call does not give.
    Other(u8),
}

/// The numbers that carry nothing, what each means, and its reason in words.
const BARE: [(u8, Refusal, &str); 19] = [
    (20, Refusal::Length, "a length is wrong"),
    (21, Refusal::SpareBit, "the spare bit is set"),
    (22, Refusal::Address, "the address is not 1 to 1,022"),
    (23, Refusal::Protection, "the protection is not 0 or 1"),
    (24, Refusal::Limit, "the limit is not 1 to 1,500"),
    (25, Refusal::Followed, "the address is followed already"),
    (26, Refusal::Full, "no slot is free"),
    (27, Refusal::NotFollowed, "the address is not followed"),
    (28, Refusal::TypeUnreadable, "the type cannot be read"),
    (29, Refusal::ControlPacket, "a control packet"),
    (47, Refusal::TypeReserved, "the type is reserved (C7)"),
    (30, Refusal::Scrambled, "the data is scrambled"),
    (33, Refusal::TooLarge, "a number has too many bits"),
    (34, Refusal::NotGood, "the state is not good"),
    (
        44,
        Refusal::BadPair,
        "a pair of lines or clock periods is bad",
    ),
    (
        45,
        Refusal::TooManyComponents,
        "there are too many components",
    ),
    (
        46,
        Refusal::Unfinished,
        "the structure is not known to be whole",
    ),
    (48, Refusal::Setting, "the setting is above 3"),
    (
        49,
        Refusal::HeaderBeyond,
        "the header is beyond the setting",
    ),
];

impl Refusal {
    /// The number that the library gave.
    pub fn number(self) -> u8 {
        match self {
            Refusal::WordUnreadable { .. } => 31,
            Refusal::OutOfStep { .. } => 32,
            Refusal::Other(number) => number,
            bare => bare.row().0,
        }
    }

    /// Of a call whose numbers carry nothing.
    pub(super) fn of(number: u8) -> Refusal {
        let row = BARE.into_iter().find(|&(other, _, _)| other == number);
        row.map_or(Refusal::Other(number), |(_, refusal, _)| refusal)
    }

    pub(super) fn of_packet(answer: Detailed) -> Refusal {
        match answer.number {
            31 => Refusal::WordUnreadable {
                place: answer.awaited_or_place,
            },
            32 => Refusal::OutOfStep {
                awaited: answer.awaited_or_place,
                came: answer.came,
            },
            number => Refusal::of(number),
        }
    }

    fn row(self) -> (u8, Refusal, &'static str) {
        let row = BARE.into_iter().find(|&(_, refusal, _)| refusal == self);
        row.expect("every refusal that carries nothing has a row")
    }
}

impl fmt::Display for Refusal {
    fn fmt(&self, text: &mut fmt::Formatter) -> fmt::Result {
        match self {
            Refusal::WordUnreadable { place } => write!(text, "word {place} cannot be read")?,
            Refusal::OutOfStep { awaited, came } => {
                write!(text, "out of step: {awaited} was awaited, {came} came")?
            }
            Refusal::Other(_) => text.write_str("a number that no call gives")?,
            bare => text.write_str(bare.row().2)?,
        }
        write!(text, " ({})", self.number())
    }
}

impl std::error::Error for Refusal {}
