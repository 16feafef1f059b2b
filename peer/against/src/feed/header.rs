//! Bare headers, read without a state: by the table, and by the plain reader that names none.

use super::answers::accepted;
use super::refusal::Refusal;

/// What 23 bits are read as, and how many of them were flipped.
#[derive(Clone, Copy, Debug, PartialEq, Eq)]
pub struct Header {
    pub address: u16,
    pub index: u8,
    pub flips: u8,
}

/// Reads a header in which at most so many flips are put right, 0 to 3. Refused: 33 if it has more than 23 bits, 48 for
/// the setting, 49 if the nearest word needs more flips.
pub fn read_header(n: u32, most: u32) -> Result<Header, Refusal> {
    header(crate::read_header_within(n, most))
}

/// The same, and always with the same result, by trying the error patterns themselves: for those who have to judge how a
/// header is read. It is slow.
pub fn read_header_plain(n: u32, most: u32) -> Result<Header, Refusal> {
    header(crate::read_header_plain(n, most))
}

fn header((number, address, index, flips): (u8, u16, u8, u8)) -> Result<Header, Refusal> {
    accepted(number).map(|()| Header {
        address,
        index,
        flips,
    })
}
