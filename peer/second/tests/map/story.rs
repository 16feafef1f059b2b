//! What was heard of a broadcast, beside what is true: the frames, and of one component what was said.

use second::samples::broadcast::{Frame, Sent};

/// The frames up to now.
#[derive(Default)]
pub struct Past {
    /// Whether any was heard, and how many in a row up to the last one.
    heard: bool,
    pub row: usize,
    /// The frames of the running configuration, and those of the one before.
    pub now: Span,
    pub before: Span,
}

/// What was heard of the frames of a configuration up to now.
#[derive(Clone, Copy, Default)]
pub struct Span {
    /// How many there were, and how many of them were heard.
    frames: usize,
    heard: usize,
    /// Whether the first one was.
    first: bool,
}

impl Span {
    /// Whether every frame was heard.
    pub fn all(&self) -> bool {
        self.frames == self.heard && self.first
    }
}

impl Past {
    /// The first frame of a configuration comes.
    pub fn change(&mut self) {
        self.before = self.now;
        self.now = Span::default();
    }

    /// Whether this is the first that is heard at all.
    pub fn hear(&mut self, frame: &Frame) -> bool {
        let begins = !self.heard;
        self.heard = true;
        self.row += 1;
        self.now.frames += 1;
        self.now.heard += 1;
        self.now.first |= frame.first;
        begins
    }

    pub fn miss(&mut self) {
        self.row = 0;
        self.now.frames += 1;
    }
}

/// What was heard of one component.
#[derive(Clone, Default)]
pub struct Story {
    /// The structures that it has, or had in an earlier configuration, as far as nothing that was heard since speaks against them.
    open: Vec<Vec<u64>>,
    /// In the running configuration: whether anything was announced, whether that was all ones at last, and whether all ones came
    /// without a flag.
    pub announced: bool,
    going: bool,
    gone: bool,
    /// Whether a field of it came last, announced ones from their change on, and not all ones.
    there: bool,
    /// Whether anything was announced in the configuration before, and all ones at last, and every frame of it was heard.
    pub told: bool,
    went: bool,
    /// How often a repetition began since a frame was missed or the configuration began.
    pub beginnings: usize,
    /// Whether the map held a whole list at the first of these that was wrong.
    wrong: bool,
    /// Whether the map held no whole list at one of these beginnings, and whether another came behind that.
    bare: bool,
    pub second: bool,
    /// Whether it was shown rightly in the frame before, heard or not.
    pub right: bool,
}

impl Story {
    /// The first frame is heard, where this is the structure.
    pub fn begin(&mut self, list: Option<&Vec<u64>>) {
        self.open = list.cloned().into_iter().collect();
    }

    /// A configuration begins in which this is the structure.
    pub fn change(&mut self, list: Option<&Vec<u64>>, past: &Past) {
        self.told = self.announced && past.before.all();
        self.went = self.going && past.before.all();
        if self.announced {
            self.open.clear();
            self.there = !self.going;
        }
        self.open.extend(list.cloned());
        self.open.dedup();
        self.announced = false;
        self.going = false;
        self.gone = false;
        self.miss();
    }

    pub fn miss(&mut self) {
        self.beginnings = 0;
        self.wrong = false;
        self.bare = false;
        self.second = false;
    }

    /// A field of it was heard; before, the map held a whole list of it, or not, and a wrong one.
    pub fn hear(&mut self, frame: &Frame, whole: bool, wrong: bool) {
        match frame.sent {
            Sent::New(..) => {
                self.announced = true;
                self.going = false;
            }
            Sent::Going(_) => {
                self.announced = true;
                self.going = true;
            }
            Sent::Gone(_) => {
                self.gone = true;
                self.there = false;
                self.open.clear();
            }
            Sent::Old(id, place) => {
                self.wrong |= wrong && place == 0 && self.beginnings == 0;
                self.describe(frame.present[&id][place], place, whole);
            }
            Sent::Panning => {}
        }
    }

    fn describe(&mut self, tdms: u64, place: usize, whole: bool) {
        self.there = true;
        self.open.retain(|list| list.contains(&tdms));
        if place == 0 {
            self.beginnings += 1;
            self.second |= self.bare;
            self.bare |= !whole;
        }
    }

    /// Whether this is the third beginning, and at the first a whole list was wrong.
    pub fn healed(&self, frame: &Frame) -> bool {
        matches!(frame.sent, Sent::Old(_, 0)) && self.beginnings == 3 && self.wrong
    }

    /// Whether these may be taken for its fields in a frame up to the next change, or behind it, where they truly are others.
    pub fn may_be(&self, behind: bool, truth: &[u64], fields: &[u64]) -> bool {
        if behind && self.announced {
            return fields == truth;
        }
        self.open.iter().any(|list| list == fields)
    }

    /// Whether a field was heard last, up to the next change or behind it.
    pub fn is_there(&self, behind: bool) -> bool {
        match behind && self.announced {
            true => !self.going,
            false => self.there,
        }
    }

    /// Whether all ones said that it is not there. Behind the next change, what was announced counts where nothing can follow it.
    pub fn is_gone(&self, behind: bool, all: bool) -> bool {
        if behind && self.announced {
            return self.going && all;
        }
        self.gone || self.went
    }
}
