//! Maps made by hand, good ones with any contents and bad ones; and fields of any sort, lawful or not.

use super::structures;
use crate::map::{self, Field, COMPONENT, FIELD, IDS, MAP, PANNING, STRUCTURE};
use crate::xorshift::Xorshift;

/// Where the marks of a structure stand, behind how many fields it has.
const WHOLE: usize = 1;
const LINKS: usize = 2;
const DELETED: usize = 3;
const LATE: usize = 4;
const LAST: usize = 5;
const CERTAIN: usize = 6;
const HEAD: usize = 7;
/// Where the frames of a map stand: the last count, two marks, and how many came in a row.
const FRAMES: usize = MAP - 4;
const HEARD: usize = FRAMES + 1;
const UNBROKEN: usize = FRAMES + 2;
const ROW: usize = FRAMES + 3;

/// A good map. Components are anything that they can be, and what no field was stored in holds anything too.
pub fn good(random: &mut Xorshift) -> Vec<u8> {
    let mut map = vec![0; MAP];
    let crowd = [random.below(9), 4, 8][random.below(3)];
    let certain = [random.below(9), 8][random.below(2)];
    for component in map[..FRAMES].chunks_mut(COMPONENT) {
        let (in_force, announced) = component.split_at_mut(STRUCTURE);
        if random.below(8) < crowd {
            structure(random, certain, in_force);
        }
        if random.below(8) < crowd {
            structure(random, certain, announced);
            announced[DELETED] = u8::from(announced[0] == 0 && random.chance());
        }
    }
    map[FRAMES] = count(random);
    map[HEARD] = u8::from(random.below(8) != 0);
    map[UNBROKEN] = random.below(2) as u8;
    map[ROW] = [0, 1, 253, 254, 255, random.below(256) as u8][random.below(6)];
    map
}

/// A good structure that is not deleted. So many of eight are certain.
fn structure(random: &mut Xorshift, certain: usize, bytes: &mut [u8]) {
    let fields = [0, 1, 1, 2, random.below(10), 8, 9][random.below(7)];
    bytes[0] = fields as u8;
    bytes[WHOLE] = u8::from((1..=8).contains(&fields) && random.chance());
    bytes[LINKS] = random.below(2) as u8;
    bytes[LATE] = random.below(2) as u8;
    bytes[CERTAIN] = u8::from(random.below(8) < certain);
    // Of a list, any of its fields may have come last, and a byte may be anything.
    bytes[LAST] = [0, random.below(1 + fields), random.below(256)][random.below(3)] as u8;
    let dirty = random.below(4) == 0;
    for (k, room) in bytes[HEAD..].chunks_mut(8).enumerate() {
        if k < fields || dirty {
            room.copy_from_slice(&stored(random).to_le_bytes());
        }
    }
}

/// A number in a field's room: mostly one that a field can have, and sometimes with more bits.
fn stored(random: &mut Xorshift) -> u64 {
    match random.below(8) {
        0 => random.next(),
        1 => tdms(random) | 1 << (62 + random.below(2)),
        2 => structures::DELETION,
        _ => tdms(random),
    }
}

/// A map that is bad by one byte.
pub fn bad(random: &mut Xorshift) -> Vec<u8> {
    let mut map = good(random);
    let at = STRUCTURE * random.below(2 * IDS);
    let fields = map[at];
    match random.below(6) {
        0 => map[HEARD] = more_than(random, 1),
        1 => map[UNBROKEN] = more_than(random, 1),
        2 => {
            let mark = [WHOLE, LINKS, DELETED, LATE, CERTAIN][random.below(5)];
            map[at + mark] = more_than(random, 1);
        }
        // These two are bad by what stands beside them.
        3 if fields == 0 || fields == 9 => map[at + WHOLE] = 1,
        4 if fields > 0 || at % COMPONENT == 0 => map[at + DELETED] = 1,
        _ => map[at] = more_than(random, 9),
    }
    map
}

/// A field behind the frame of a count, of any sort, mostly one that can be taken in.
pub fn field(random: &mut Xorshift, last: u8) -> Vec<u8> {
    if random.below(32) == 0 {
        return random.bytes::<FIELD>().to_vec();
    }
    let field = Field {
        count: next_count(random, last),
        flag: random.chance(),
        id: id(random),
        tdms: tdms(random),
        links: random.chance(),
    };
    field.encode()
}

/// The count that comes mostly next; or the same, a later one, one across a change, or any.
fn next_count(random: &mut Xorshift, last: u8) -> u8 {
    let step = match random.below(16) {
        0 => 0,
        1 => 2,
        2 => random.below(128) as u8,
        3 => random.below(256) as u8,
        4 => return [0, 1, 2, 3, 127, 128, 129, 130, 131, 255][random.below(10)],
        5 => 128 + random.below(3) as u8,
        _ => 1,
    };
    last.wrapping_add(step)
}

/// A count of a last frame: those about a change come often.
fn count(random: &mut Xorshift) -> u8 {
    match random.below(2) {
        0 => [0, 1, 2, 3, 127, 128, 129, 130, 131, 255][random.below(10)],
        _ => random.below(256) as u8,
    }
}

/// Few components, so that fields meet, and sometimes any.
pub fn id(random: &mut Xorshift) -> u8 {
    match random.below(8) {
        0 => random.below(256) as u8,
        1 => [0, PANNING - 1, PANNING, PANNING + 1, 255][random.below(5)],
        _ => random.below(3) as u8,
    }
}

/// Few numbers that rise, so that lists are repeated; deletions; lawful ones; and any bits.
pub fn tdms(random: &mut Xorshift) -> u64 {
    let few = [0, 3, 1023, 1023, random.below(3) as u32, 5];
    match random.below(16) {
        0 => pack([1023, 1023, 1023, 1023, 2047, 2047]),
        1 => pack([1023, 1023, 1023, 1023, random.below(5) as u32, 5]),
        2 => any_pairs(random),
        3 => random.next() >> 2,
        4 => structures::list(random)[0],
        5..=7 => pack(few),
        8 => pack([random.below(4) as u32, 3, 4, 4, random.below(6) as u32, 6]),
        _ => pack([random.below(12) as u32, 12, 20, 30, 40, 50]),
    }
}

/// Pairs about every edge, good and bad.
pub fn any_pairs(random: &mut Xorshift) -> u64 {
    let mut number = |ones: u32| match random.below(2) {
        0 => [0, 1, ones / 2, ones - 1, ones][random.below(5)],
        _ => random.below(ones as usize + 1) as u32,
    };
    let lines = [(); 4].map(|()| number(1023));
    let [fcp, lcp] = [(); 2].map(|()| number(2047));
    pack([lines[0], lines[1], lines[2], lines[3], fcp, lcp])
}

fn pack(numbers: [u32; 6]) -> u64 {
    map::pack(numbers).1
}

fn more_than(random: &mut Xorshift, bound: u8) -> u8 {
    bound + 1 + random.below(usize::from(u8::MAX - bound)) as u8
}
