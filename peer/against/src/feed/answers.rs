//! What the calls answer: enums in place of the numbers 1 to 7.

use super::refusal::Refusal;
use second::group::Detailed;

/// How the packets of an address carry their data.
#[derive(Clone, Copy, Debug, PartialEq, Eq)]
pub enum Protection {
    /// 90 bytes a packet, 360 a group.
    Plain = 0,
    /// 45 bytes a packet as thirty Golay words, 180 a group.
    Protected = 1,
}

/// What a packet did to the group of its address.
#[derive(Clone, Copy, Debug, PartialEq, Eq)]
pub enum Taken {
    /// It began one. One that was under way is given up.
    Started,
    /// It joined it.
    Held,
    /// It made it whole: ask now shows it, and it is fresh.
    Whole,
}

/// What the last whole group of an address is worth.
#[derive(Clone, Copy, Debug, PartialEq, Eq)]
pub enum Worth {
    /// There is none yet.
    Nothing,
    Fresh,
    /// A packet was lost or could not be read since.
    Doubtful,
    /// So many subframes have ended since as its limit says, or more.
    Stale,
}

pub(super) fn accepted(number: u8) -> Result<(), Refusal> {
    match number {
        0 => Ok(()),
        number => Err(Refusal::of(number)),
    }
}

pub(super) fn taken(answer: Detailed) -> Result<Taken, Refusal> {
    match answer.number {
        1 => Ok(Taken::Started),
        2 => Ok(Taken::Held),
        3 => Ok(Taken::Whole),
        _ => Err(Refusal::of_packet(answer)),
    }
}

pub(super) fn worth(number: u8) -> Result<Worth, Refusal> {
    match number {
        4 => Ok(Worth::Nothing),
        5 => Ok(Worth::Fresh),
        6 => Ok(Worth::Doubtful),
        7 => Ok(Worth::Stale),
        number => Err(Refusal::of(number)),
    }
}
