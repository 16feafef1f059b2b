//! The record program (section 7 of the paper), from its whole input to its whole output.

use crate::group;
use crate::numbers::BAD_RECORD;
use crate::table::{self, STATE};

const VERSION: u8 = 1;
const PACKET: u8 = 1;
const SUBFRAME_END: u8 = 2;
const FOLLOW: u8 = 3;
const LEAVE: u8 = 4;
const ASK: u8 = 5;

/// How long the body of each kind is.
const BODIES: [(u8, usize); 5] = [
    (PACKET, 94),
    (SUBFRAME_END, 0),
    (FOLLOW, 5),
    (LEAVE, 2),
    (ASK, 2),
];

/// A packet call on a state.
pub type Packet = fn(&mut [u8], &[u8]) -> u8;

/// What the program prints: a first line, and a line for each record. A bad record is the last.
pub fn answers(input: &[u8]) -> String {
    answers_by(group::packet, input)
}

/// The same by another packet call: `fast::packet` where time counts.
pub fn answers_by(packet: Packet, input: &[u8]) -> String {
    let mut state = [0; STATE];
    table::start(&mut state);
    let mut text = String::from("answers 1\n");
    let mut rest = input;
    let mut count = 0;
    while !rest.is_empty() {
        let answer = next(packet, &mut rest, &mut state);
        count += 1;
        text += &format!("{count} {answer}\n");
    }
    text
}

/// Serves the record at the start of the input and moves behind it. Behind a bad one nothing is left.
fn next(packet: Packet, rest: &mut &[u8], state: &mut [u8]) -> u8 {
    match record(rest) {
        Some((kind, body, behind)) => {
            *rest = behind;
            serve(packet, state, kind, body)
        }
        None => {
            *rest = &[];
            BAD_RECORD
        }
    }
}

/// The kind and the body of the first record, and what is behind it; none if the record is bad.
fn record(input: &[u8]) -> Option<(u8, &[u8], &[u8])> {
    let (&length, input) = input.split_first_chunk()?;
    let length = u16::from_be_bytes(length);
    let (record, behind) = input.split_at_checked(length.into())?;
    let (&[version, kind], body) = record.split_first_chunk()?;
    let known = version == VERSION && BODIES.contains(&(kind, body.len()));
    known.then_some((kind, body, behind))
}

fn serve(packet: Packet, state: &mut [u8], kind: u8, body: &[u8]) -> u8 {
    match (kind, body) {
        (PACKET, image) => packet(state, image),
        (SUBFRAME_END, []) => table::subframe_end(state),
        (FOLLOW, &[a, b, protection, c, d]) => {
            table::follow(state, number(a, b), protection.into(), number(c, d))
        }
        (LEAVE, &[a, b]) => table::leave(state, number(a, b)),
        (ASK, &[a, b]) => table::ask(state, number(a, b)).0,
        _ => unreachable!("the kind and the length of the body were looked at"),
    }
}

fn number(high: u8, low: u8) -> u32 {
    u16::from_be_bytes([high, low]).into()
}
