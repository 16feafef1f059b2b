//! One history on both sides: the library's state and another implementation's, compared after every call.

use crate::calls;
use crate::MARK;
use second::group::Detailed;
use second::samples::calls::{Answer, Call};
use second::samples::difference;

/// Bytes on each side of the library's state that nobody may touch.
const MARGIN: usize = 256;

/// How the other implementation makes a call: `Call::make` or `Call::make_fast`.
pub type Other = fn(&Call, &mut [u8]) -> Answer;

pub struct Both {
    /// The library's state, between marks.
    ours: Vec<u8>,
    theirs: Vec<u8>,
    other: Other,
}

impl Both {
    /// Two copies of a state, of any length and with any contents.
    pub fn new(state: &[u8], other: Other) -> Both {
        let margin = [MARK; MARGIN];
        Both {
            ours: [&margin, state, &margin].concat(),
            theirs: state.to_vec(),
            other,
        }
    }

    /// The state, which is the same on both sides.
    pub fn state(&self) -> &[u8] {
        &self.theirs
    }

    /// Makes a call on both sides. Answers and states have to be equal, and nothing else may have changed.
    pub fn make(&mut self, call: &Call) -> Answer {
        let before = call.clone();
        let end = MARGIN + self.theirs.len();
        let ours = make(call, &mut self.ours[MARGIN..end]);
        let theirs = (self.other)(call, &mut self.theirs);
        assert_eq!(ours, theirs, "{call:02x?}");
        let place = difference(&self.ours[MARGIN..end], &self.theirs);
        assert_eq!(place, None, "{ours:?} {call:02x?}");
        assert_eq!(self.ours[..MARGIN], [MARK; MARGIN], "{call:02x?}");
        assert_eq!(self.ours[end..], [MARK; MARGIN], "{call:02x?}");
        assert_eq!(*call, before, "what is lent for reading is only read");
        theirs
    }
}

/// Makes a call on a state by the library.
fn make(call: &Call, state: &mut [u8]) -> Answer {
    match call {
        Call::Start => calls::start(state).into(),
        &Call::Follow(address, protection, limit) => {
            calls::follow(state, address, protection, limit).into()
        }
        &Call::Leave(address) => calls::leave(state, address).into(),
        Call::Packet(image) => packet(state, image).into(),
        Call::SubframeEnd => calls::subframe_end(state).into(),
        &Call::SetHeaderFlips(most) => calls::set_header_flips(state, most).into(),
        &Call::Ask(address) => calls::ask(state, address).into(),
        Call::BoardText(address, notice) => calls::board_text(state, *address, notice).into(),
    }
}

/// Takes an image in by the call that tells what its number carries. The call that does not has to do the same to a copy.
fn packet(state: &mut [u8], image: &[u8]) -> Detailed {
    let mut copy = state.to_vec();
    let number = calls::packet(&mut copy, image);
    let answer = calls::packet_detail(state, image);
    assert_eq!(answer.number, number, "{image:02x?}");
    assert_eq!(difference(state, &copy), None, "{image:02x?}");
    answer
}
