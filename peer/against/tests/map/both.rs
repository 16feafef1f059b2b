//! One map on both sides: the library's and the second implementation's, compared after every call.

use against::{map as ours, MARK};
use second::map::{self as theirs, MAP};
use second::samples::difference;

/// Where the last frame's count stands in a map.
pub const LAST: usize = MAP - 4;
/// Bytes on each side of the library's buffers that nobody may touch.
const MARGIN: usize = 64;

/// One map on both sides.
pub struct Both {
    /// The library's, between marks.
    ours: Vec<u8>,
    theirs: Vec<u8>,
}

impl Both {
    /// Two copies of a map, of any length and with any contents.
    pub fn new(map: &[u8]) -> Both {
        Both {
            ours: between_marks(map),
            theirs: map.to_vec(),
        }
    }

    pub fn start(&mut self) -> u8 {
        let number = ours::start(inside(&mut self.ours));
        assert_eq!(number, theirs::start(&mut self.theirs));
        self.check("start");
        number
    }

    pub fn take(&mut self, field: &[u8]) -> u8 {
        let lent = field.to_vec();
        let number = ours::take(inside(&mut self.ours), &lent);
        assert_eq!(
            number,
            theirs::take(&mut self.theirs, field),
            "{field:02x?}"
        );
        assert_eq!(lent, field, "what is lent for reading is only read");
        self.check("take");
        number
    }

    /// What is shown of a component, and what was heard of it.
    pub fn show(&mut self, id: u8, count: u8) -> u8 {
        let shown = ours::show(inside(&mut self.ours), id, count);
        assert_eq!(shown, theirs::show(&self.theirs, id, count), "{id} {count}");
        self.check("show");
        let heard = ours::heard(inside(&mut self.ours), id, count);
        let expected = theirs::heard(&self.theirs, id, count);
        assert_eq!(heard, expected, "{id} {count}");
        self.check("heard");
        shown.0
    }

    pub fn known(&mut self, count: u8) -> u8 {
        let known = ours::known(inside(&mut self.ours), count);
        assert_eq!(known, theirs::known(&self.theirs, count), "{count}");
        self.check("known");
        known.0
    }

    pub fn list(&mut self, count: u8, room: usize) -> u8 {
        let mut out = between_marks(&vec![0x5A; room]);
        let mut expected = vec![0x5A; room];
        let number = ours::list(inside(&mut self.ours), count, inside(&mut out));
        assert_eq!(number, theirs::list(&self.theirs, count, &mut expected));
        assert_eq!(out, between_marks(&expected), "{count}");
        self.check("list");
        number
    }

    fn check(&self, call: &str) {
        let expected = between_marks(&self.theirs);
        assert_eq!(difference(&self.ours, &expected), None, "{call}");
    }

    pub fn last(&self) -> u8 {
        self.theirs[LAST]
    }
}

pub fn between_marks(bytes: &[u8]) -> Vec<u8> {
    let margin = [MARK; MARGIN];
    [&margin, bytes, &margin].concat()
}

pub fn inside(bytes: &mut [u8]) -> &mut [u8] {
    let end = bytes.len() - MARGIN;
    &mut bytes[MARGIN..end]
}
