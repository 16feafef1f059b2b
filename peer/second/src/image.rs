//! Packet images (4.3.6): 23 bits of header, the type byte, 90 useful bytes and one spare bit, as a row of 752 bits.

use crate::bits;
use crate::golay;
use crate::numbers::{DONE, LENGTH, TYPE_CONTROL, TYPE_RESERVED, TYPE_SCRAMBLED};
use crate::types;
use std::ops::Range;

/// Bytes of an image, of its useful part, and of the data that a protected useful part stands for.
pub const IMAGE: usize = 94;
pub const USEFUL: usize = 90;
pub const PROTECTED: usize = 45;

/// Where the parts of an image stand in its row of bits.
pub const HEADER_AT: Range<usize> = 0..23;
pub const TYPE_AT: Range<usize> = 23..31;
pub const USEFUL_AT: Range<usize> = 31..751;

/// Bits of a segment of data and of the word that it becomes (8.3.2).
const SEGMENT: usize = 12;
pub const WORD: usize = 24;

/// What an image was received as. A refusal has index 0 and only bytes 0.
#[derive(Clone, Copy, Debug, PartialEq, Eq)]
pub struct Received {
    pub number: u8,
    /// With number 31, which of the thirty words is the first that cannot be read; otherwise 0.
    pub place: u8,
    pub index: u8,
    /// The useful bytes, or the 45 protected ones with zeros behind them.
    pub bytes: [u8; USEFUL],
}

/// The number of a refusal and the place that goes with it.
type Refusal = (u8, u8);

/// The image of a packet. Address and index must fit their fields.
pub fn write_image(address: u32, index: u32, kind: u8, useful: &[u8; USEFUL]) -> [u8; IMAGE] {
    let (number, header) = golay::write_header(address, index);
    assert_eq!(number, DONE, "an address and an index of the right size");
    let mut row = bits::of_number(header, HEADER_AT.len());
    row.extend(bits::of_bytes(&[kind]));
    row.extend(bits::of_bytes(useful));
    let spare = false;
    row.push(spare);
    array(&bits::to_bytes(&row))
}

/// Thirty words in place of 45 bytes: each successive segment of twelve bits becomes a word.
pub fn protect(data: &[u8; PROTECTED]) -> [u8; USEFUL] {
    let mut row = Vec::new();
    for segment in bits::of_bytes(data).chunks(SEGMENT) {
        let word = golay::word24(bits::to_number(segment));
        row.extend(bits::of_number(word, WORD));
    }
    array(&bits::to_bytes(&row))
}

/// The way back, or the number 31 and the place of the first word that cannot be read.
pub fn unprotect(useful: &[u8; USEFUL]) -> Result<[u8; PROTECTED], Refusal> {
    let mut row = Vec::new();
    for (place, word) in (0u8..).zip(bits::of_bytes(useful).chunks(WORD)) {
        let (number, information, _) = golay::read_word(bits::to_number(word));
        if number != DONE {
            return Err((number, place));
        }
        row.extend(bits::of_number(u32::from(information), SEGMENT));
    }
    Ok(array(&bits::to_bytes(&row)))
}

/// What an image holds for a follower of plain or protected data. Address and spare bit play no part.
pub fn received(protected: bool, image: &[u8]) -> Received {
    match contents(protected, image) {
        Ok((index, bytes)) => answer(DONE, 0, index, bytes),
        Err((number, place)) => answer(number, place, 0, [0; USEFUL]),
    }
}

fn answer(number: u8, place: u8, index: u8, bytes: [u8; USEFUL]) -> Received {
    Received {
        number,
        place,
        index,
        bytes,
    }
}

fn contents(protected: bool, image: &[u8]) -> Result<(u8, [u8; USEFUL]), Refusal> {
    if image.len() != IMAGE {
        return Err((LENGTH, 0));
    }
    let row = bits::of_bytes(image);
    check_type(bits::to_number(&row[TYPE_AT]) as u8)?;
    let useful = array(&bits::to_bytes(&row[USEFUL_AT]));
    let bytes = if protected {
        with_zeros(&unprotect(&useful)?)
    } else {
        useful
    };
    let (_, _, index, _) = golay::read_header(bits::to_number(&row[HEADER_AT]));
    Ok((index, bytes))
}

/// Only data is taken on. A byte that was read as another type is refused by what it was read as.
fn check_type(byte: u8) -> Result<(), Refusal> {
    let (number, value, _) = types::read_type(byte);
    match value {
        _ if number != DONE => Err((number, 0)),
        types::DATA => Ok(()),
        types::CONTROL => Err((TYPE_CONTROL, 0)),
        types::RESERVED => Err((TYPE_RESERVED, 0)),
        types::SCRAMBLED => Err((TYPE_SCRAMBLED, 0)),
        _ => unreachable!("a byte is read as one of four types"),
    }
}

fn with_zeros(data: &[u8; PROTECTED]) -> [u8; USEFUL] {
    let mut bytes = [0; USEFUL];
    bytes[..PROTECTED].copy_from_slice(data);
    bytes
}

fn array<const N: usize>(bytes: &[u8]) -> [u8; N] {
    bytes.try_into().expect("a row of the right length")
}
