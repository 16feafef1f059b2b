//! The multiplex's map as a program in Rust would use it.

use super::answers::accepted;
use super::refusal::Refusal;
use crate::map;
use second::map::{IDS, MAP};

/// Which components there are and where, as far as the fields of the frames told it, and the library's calls on it.
#[derive(Clone)]
pub struct Map {
    bytes: Box<[u8; MAP]>,
}

/// Where a part of a component stands: lines in two rows, and clock periods of each line, from the first to the last.
#[derive(Clone, Copy, Debug, PartialEq, Eq)]
pub struct Structure {
    /// FLN1 and LLN1.
    pub first_lines: (u32, u32),
    /// FLN2 and LLN2.
    pub second_lines: (u32, u32),
    /// FCP and LCP.
    pub clock_periods: (u32, u32),
}

/// How far what a map has heard reaches.
#[derive(Clone, Copy, Debug, PartialEq, Eq)]
pub struct Reach {
    /// How many frames were heard in a row, up to 255.
    pub row: u8,
    /// Whether every frame of the running configuration was.
    pub unbroken: bool,
    /// How many components are in force. More than 128 means that deletions were missed.
    pub components: usize,
}

impl Map {
    /// A map of which nothing is known.
    pub fn new() -> Map {
        let mut bytes = Box::new([0; MAP]);
        accepted(map::start(&mut bytes[..])).expect("a map of the right length");
        Map { bytes }
    }

    /// A map that was kept. Refused: 34, not good.
    pub fn from_bytes(bytes: &[u8; MAP]) -> Result<Map, Refusal> {
        // Of a good map, show may say that a structure is not whole. That is no fault of the map.
        match map::show(bytes, 0, 0) {
            (0 | 46, ..) => Ok(Map {
                bytes: Box::new(*bytes),
            }),
            (number, ..) => Err(Refusal::of(number)),
        }
    }

    /// The bytes of the map, for keeping.
    pub fn bytes(&self) -> &[u8; MAP] {
        &self.bytes
    }

    /// Takes the field of a frame in. Refused, and nothing is changed: 20 for its length, 44 for a bad pair, 45 for one
    /// component too many.
    pub fn take(&mut self, field: &[u8]) -> Result<(), Refusal> {
        accepted(map::take(&mut self.bytes[..], field))
    }

    /// The structures of a component in the frame of a count: no structures if there is no such component, and nothing if not
    /// enough was heard to know that. Refused: 46 if they are not known to be all, and 33 if a map that was kept has one that no
    /// field can have.
    pub fn component(&self, id: u8, count: u8) -> Result<Option<Vec<Structure>>, Refusal> {
        let (number, at, length, _, _, unknown) = map::show(&self.bytes[..], id, count);
        accepted(number)?;
        if unknown == 1 {
            return Ok(None);
        }
        self.structures(at, length).map(Some)
    }

    /// The structures of a component that were heard up to now, for the frame of a count, and whether they are known to be all.
    /// Refused: 33, as above.
    pub fn heard(&self, id: u8, count: u8) -> Result<(Vec<Structure>, bool), Refusal> {
        let (number, at, length, whole) = map::heard(&self.bytes[..], id, count);
        accepted(number)?;
        Ok((self.structures(at, length)?, whole == 1))
    }

    /// The structures that stand in a part of the map.
    fn structures(&self, at: usize, length: usize) -> Result<Vec<Structure>, Refusal> {
        let part = &self.bytes[at..at + length];
        part.chunks_exact(8).map(structure).collect()
    }

    /// In how many frames behind the last one a change of the component comes, if one is announced.
    pub fn change_in(&self, id: u8) -> Option<u8> {
        let (_, _, _, announced, frames, _) = map::show(&self.bytes[..], id, 0);
        (announced == 1).then_some(frames)
    }

    /// The components that are in force in the frame of a count, those too that are not known to be whole.
    pub fn components(&self, count: u8) -> Vec<u8> {
        let mut out = [0; IDS];
        accepted(map::list(&self.bytes[..], count, &mut out)).expect("a good map");
        let ids = (0..=u8::MAX).zip(out);
        ids.filter(|&(_, said)| [1, 2].contains(&said))
            .map(|(id, _)| id)
            .collect()
    }

    /// How far what was heard reaches, in the frame of a count.
    pub fn reach(&self, count: u8) -> Reach {
        let (number, row, unbroken, components) = map::known(&self.bytes[..], count);
        accepted(number).expect("a good map");
        Reach {
            row,
            unbroken: unbroken == 1,
            components,
        }
    }
}

impl Default for Map {
    fn default() -> Map {
        Map::new()
    }
}

/// The structure that eight bytes of a map hold.
fn structure(bytes: &[u8]) -> Result<Structure, Refusal> {
    let tdms = bytes
        .iter()
        .rev()
        .fold(0, |tdms, &byte| tdms << 8 | u64::from(byte));
    let (number, [fln1, lln1, fln2, lln2, fcp, lcp]) = map::unpack(tdms);
    accepted(number)?;
    Ok(Structure {
        first_lines: (fln1, lln1),
        second_lines: (fln2, lln2),
        clock_periods: (fcp, lcp),
    })
}
