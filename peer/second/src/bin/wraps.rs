//! Writes rows of a multiplex over three wraps of the frame count to standard output: the last part of `crates/mapcalls/stdin`.
//!
//! 768 frames, of which the first has count 3, each with five identical blocks; a configuration begins with each count of 2 or 130.
//! What is shown behind a frame, in it and in the next one, is written from the plan and not from a map: every component as the
//! configuration has it, and none but those. The digests of the map, and the answers about a few frames, are `second::map`'s.

use second::fnv::digest;
use second::map::{known, pack, show, start, take, write, FIELD, MAP, PANNING};

const FRAMES: usize = 768;
/// Frames around the first three changes, and the last one.
const TOLD: [usize; 11] = [0, 1, 64, 125, 126, 127, 254, 255, 382, 383, 767];
const IDS: [u8; 6] = [1, 16, 17, 32, 33, 64];
const HEADING: &str = "\
# ## Three wraps of the frame count
#
# Made by the second program: cargo run -p second --bin wraps, from peer/. 768 frames, in which six configurations begin. Components 1, 16,
# 17, 32, 33 and 64 have 1, 1, 3, 1, 2 and 8 fields. 16 moves with every change, 17 with every second, 33 round three places; 32 comes and goes
# with every change, 64 leaves with every third. Each frame's field, and four times more; then what is shown of all components in this frame
# and in the next, as the plan has it.";

/// A frame: its count, its configuration, and how many frames ago that began.
struct Frame {
    count: u8,
    config: usize,
    since: usize,
}

/// Flag, component, six numbers and LINKS.
type Sent = (u8, u8, [u32; 6], u8);

fn main() {
    let mut map = vec![7; MAP];
    println!("{HEADING}\nfill-map 7 0 = 0x{:08x}", digest(&map));
    println!("start = {} 0x{:08x}", start(&mut map), digest(&map));
    let mut silent = IDS.to_vec();
    for frame in 0..FRAMES {
        let sent = field_of(&frame_at(frame));
        silent.retain(|&id| (0, id) != (sent.0, sent.1));
        heard(&mut map, &frame_at(frame), sent);
        // From the 255th frame in a row on, that nothing came of a component means that there is none.
        let unknown = |id: &u8| frame < 254 && !IDS.contains(id);
        shown(&frame_at(frame), |config, id| unknown(&id) || config == 0 && silent.contains(&id));
        if TOLD.contains(&frame) {
            told(&map, frame);
        }
    }
}

fn frame_at(frame: usize) -> Frame {
    Frame {
        count: ((frame + 3) % 256) as u8,
        config: (frame + 1) / 128,
        since: (frame + 1) % 128,
    }
}

/// A frame's field, in five blocks.
fn heard(map: &mut [u8], frame: &Frame, (flag, id, six, links): Sent) {
    let mut field = [0; FIELD];
    let (number, tdms) = pack(six);
    assert_eq!(number, 0, "six numbers that fit");
    assert_eq!(write(frame.count, flag, id, tdms, links, &mut field), 0, "a sound field");
    let number = take(map, &field);
    let six = six.map(|n| n.to_string()).join(" ");
    println!("take {} {flag} {id} {links}  {six} = {number} 0x{:08x}", frame.count, digest(map));
    let refused = (0..4).filter(|_| take(map, &field) != 0).count();
    println!("again 4 = {refused} 0x{:08x}", digest(map));
}

/// What is shown in a frame, and in the next.
fn shown(frame: &Frame, unknown: impl Fn(usize, u8) -> bool) {
    let next = frame.config + usize::from(frame.since == 127);
    for (count, config) in [(frame.count, frame.config), (frame.count.wrapping_add(1), next)] {
        println!("all {count} = 0x{:08x}", all(config, |id| unknown(config, id)));
    }
}

/// Whether a move of 16 is announced, and in how many frames it comes; how far what was heard reaches.
fn told(map: &[u8], frame: usize) {
    println!("# Behind frame {frame}.");
    let count = frame_at(frame).count;
    let (number, at, len, announced, frames, unknown) = show(map, 16, count);
    let shown = digest(&map[at..at + len]);
    println!("show 16 {count} = {number} {at} {len} {announced} {frames} {unknown} 0x{shown:08x}");
    let (number, row, unbroken, components) = known(map, count);
    println!("known {count} = {number} {row} {unbroken} {components}");
}

/// Every component's mark in a configuration, 1 where it is whole, 3 where it is not known, and the fields of those that are there.
/// Configuration 0 is the one before the first change: nothing.
fn all(config: usize, unknown: impl Fn(u8) -> bool) -> u32 {
    let there = |id: u8| IDS.iter().position(|&it| it == id).map_or(vec![], |comp| structure(comp, config));
    let mark = |id: u8| if !there(id).is_empty() { 1 } else if unknown(id) { 3 } else { 0 };
    let marks = (0..=u8::MAX).map(mark);
    let fields = (0..=u8::MAX).flat_map(there).flat_map(|six| pack(six).1.to_le_bytes());
    digest(&marks.chain(fields).collect::<Vec<u8>>())
}

fn structure(comp: usize, config: usize) -> Vec<[u32; 6]> {
    (0..fields(comp, config)).map(|k| six(comp, config, k)).collect()
}

fn fields(comp: usize, config: usize) -> usize {
    let there = match comp {
        _ if config == 0 => false,
        3 => config % 2 == 1,
        5 => config % 3 != 0,
        _ => true,
    };
    if there {
        [1, 1, 3, 1, 2, 8][comp]
    } else {
        0
    }
}

/// The first line tells component, field and variant apart; the second line pair is not in use.
fn six(comp: usize, config: usize, k: usize) -> [u32; 6] {
    let variant = match comp {
        1 => config % 10,
        2 => config / 2 % 10,
        4 => config % 3,
        _ => 0,
    };
    let line = (100 * comp + 10 * k + variant) as u32;
    [line, line + 5, 1023, 1023, 9 + comp as u32, 205]
}

/// A component's field, of all 16 component by component.
fn pair_at(n: usize) -> (usize, usize) {
    match n {
        8.. => (5, n - 8),
        6.. => (4, n - 6),
        5 => (3, 0),
        2.. => (2, n - 2),
        _ => (n, 0),
    }
}

/// A frame's field: of the next configuration and of the one in force by turns.
fn field_of(frame: &Frame) -> Sent {
    if frame.since % 2 == 0 {
        new_field(frame)
    } else {
        old_field(frame)
    }
}

/// Four repetitions of all that comes. What goes is deleted with its first field's turn, and the others' turns are panning's.
fn new_field(frame: &Frame) -> Sent {
    let turn = frame.since / 2;
    let (comp, k) = pair_at(turn % 16);
    let links = (turn / 16 % 2) as u8;
    if k < fields(comp, frame.config + 1) {
        (1, IDS[comp], six(comp, frame.config + 1, k), links)
    } else if k == 0 {
        (1, IDS[comp], [1023, 1023, 1023, 1023, 9, 205], links)
    } else {
        (1, PANNING, [5, 0, 0, 0, 0, 0], 0)
    }
}

/// What is in force, each field four times; what is not in force is deleted again. The last component's fields come by turns with the
/// others', and from the fourth turn on, so that a configuration begins in the middle of them.
fn old_field(frame: &Frame) -> Sent {
    let turn = frame.since / 2 + 3;
    let n = turn % 16;
    let (comp, k) = pair_at(if n % 2 == 0 { 8 + n / 2 } else { n / 2 });
    let links = (turn / 16 % 2) as u8;
    if k < fields(comp, frame.config) {
        (0, IDS[comp], six(comp, frame.config, k), links)
    } else {
        (0, IDS[comp], [1023, 1023, 1023, 1023, 2047, 2047], links)
    }
}
