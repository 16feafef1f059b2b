//! The multiplex's map (document 02, Ask 4; ETS 300 352, 4.5.4 and annex C): which components there are and where, in
//! force and announced, as the fields of the frames tell it. A field is a row of bits here; each call takes the whole
//! map out of the lent bytes, works on it as values and puts it back.

mod field;
mod structure;
mod values;

pub use field::{Field, FIELD, PANNING};
pub use structure::{Component, Structure, COMPONENT, STRUCTURE};
pub use values::{Heard, Map, Shown, IDS, MAP};

use crate::numbers::{done, refuse_unless, DONE, LENGTH, TOO_LARGE, UNFINISHED};

/// Sets every byte to 0, whatever was there.
pub fn start(map: &mut [u8]) -> u8 {
    if map.len() != MAP {
        return LENGTH;
    }
    map.fill(0);
    DONE
}

/// Takes a field in. A refused one changes nothing.
pub fn take(map: &mut [u8], field: &[u8]) -> u8 {
    done(taken(map, field).map(|bytes| map.copy_from_slice(&bytes)))
}

/// The bytes of a map behind a field.
fn taken(map: &[u8], field: &[u8]) -> Result<Vec<u8>, u8> {
    refuse_unless(map.len() == MAP, LENGTH)?;
    let field = Field::decode(field)?;
    let mut map = Map::decode(map)?;
    map.take(&field)?;
    Ok(map.encode())
}

/// (number, place, length, announced, frames, unknown): the part of the map that holds a component's fields in the frame
/// of a count, whether something is announced of it, in how many frames that comes, and whether nothing is known of it.
pub fn show(map: &[u8], id: u8, count: u8) -> (u8, usize, usize, u8, u8, u8) {
    match Map::decode(map).map(|map| map.show(id, count)) {
        Ok(it) => it.answers(),
        Err(number) => (number, 0, 0, 0, 0, 0),
    }
}

/// For every TDMCID, what show says of it: 0 that there is none, 1 its fields, 2 that they are not known to be all, 3 that
/// nothing is known of it.
pub fn list(map: &[u8], count: u8, out: &mut [u8]) -> u8 {
    done(listed(map, count, out.len()).map(|bytes| out.copy_from_slice(&bytes)))
}

fn listed(map: &[u8], count: u8, room: usize) -> Result<Vec<u8>, u8> {
    refuse_unless(map.len() == MAP && room == IDS, LENGTH)?;
    let map = Map::decode(map)?;
    let known = |id| match map.show(id, count) {
        shown if shown.number == UNFINISHED => 2,
        shown if shown.length > 0 => 1,
        shown if shown.unknown => 3,
        _ => 0,
    };
    Ok((0..=u8::MAX).map(known).collect())
}

/// (number, place, length, whole): the part of the map that holds the fields that were heard of a component, for the frame
/// of a count, and whether they are known to be all.
pub fn heard(map: &[u8], id: u8, count: u8) -> (u8, usize, usize, u8) {
    match Map::decode(map).map(|map| map.heard_of(id, count)) {
        Ok(it) => (DONE, it.at, it.length, it.whole.into()),
        Err(number) => (number, 0, 0, 0),
    }
}

/// (number, row, unbroken, components): how many frames were heard in a row, whether every one of the running
/// configuration was, and how many components are in force in the frame of a count.
pub fn known(map: &[u8], count: u8) -> (u8, u8, u8, usize) {
    match Map::decode(map) {
        Ok(map) => (
            DONE,
            map.row,
            map.unbroken.into(),
            map.components_then(count),
        ),
        Err(number) => (number, 0, 0, 0),
    }
}

/// (number, count, flag, id, tdms, links)
pub fn read(field: &[u8]) -> (u8, u8, u8, u8, u64, u8) {
    match Field::decode(field) {
        Ok(it) => (
            DONE,
            it.count,
            it.flag.into(),
            it.id,
            it.tdms,
            it.links.into(),
        ),
        Err(number) => (number, 0, 0, 0, 0, 0),
    }
}

pub fn write(count: u8, flag: u8, id: u8, tdms: u64, links: u8, out: &mut [u8]) -> u8 {
    let written = written(out.len(), count, flag, id, tdms, links);
    done(written.map(|bytes| out.copy_from_slice(&bytes)))
}

fn written(room: usize, count: u8, flag: u8, id: u8, tdms: u64, links: u8) -> Result<Vec<u8>, u8> {
    refuse_unless(room == FIELD, LENGTH)?;
    field::refuse_wide(tdms)?;
    let field = Field {
        count,
        flag: structure::mark(flag).ok_or(TOO_LARGE)?,
        id,
        tdms,
        links: structure::mark(links).ok_or(TOO_LARGE)?,
    };
    field.refuse_bad_pairs()?;
    Ok(field.encode())
}

/// (number, tdms) of FLN1, LLN1, FLN2, LLN2, FCP and LCP.
pub fn pack(numbers: [u32; 6]) -> (u8, u64) {
    match field::of_parts(numbers) {
        Ok(tdms) => (DONE, tdms),
        Err(number) => (number, 0),
    }
}

/// (number, FLN1 and so on)
pub fn unpack(tdms: u64) -> (u8, [u32; 6]) {
    match field::refuse_wide(tdms) {
        Ok(()) => (DONE, field::parts(tdms)),
        Err(number) => (number, [0; 6]),
    }
}
