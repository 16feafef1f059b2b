//! One address: what was sent to it, what was answered, and what that must have led to.

use crate::channel::{carried, go_beyond, harm_front, Channel, Fate};
use second::group::{packet, write_group};
use second::image::write_image;
use second::samples::difference;
use second::table::{ask, board_text, follow, leave, Lent};
use second::types::{CONTROL, RESERVED, SCRAMBLED};
use second::xorshift::Xorshift;

const NOTICE: &[u8] = b"no platform known";
const MOST_LOST: usize = 3;

/// What happened at an address, in its order.
#[derive(Clone, Copy, PartialEq, Eq)]
enum Event {
    Answered(u8),
    SubframeEnded,
}

pub struct Line {
    address: u32,
    protected: bool,
    limit: u32,
    followed: bool,
    /// The group that is being sent, the index of its packet that comes next, and how many were lost in a row.
    message: Vec<u8>,
    images: [u8; 376],
    next: usize,
    lost: usize,
    /// The fate of the packet on its way, and whether all of the group's before it came and could be read.
    fate: Fate,
    complete: bool,
    /// All that happened since the last follow, and the group that was handed out last.
    transcript: Vec<Event>,
    shown: Option<Vec<u8>>,
}

impl Line {
    /// A line that nobody follows yet. Its address is one of the sixty above a number.
    pub fn new(random: &mut Xorshift, above: u32) -> Line {
        Line {
            address: above + 1 + random.below(60) as u32,
            protected: random.chance(),
            limit: 1 + random.below(5) as u32,
            followed: false,
            message: Vec::new(),
            images: [0; 376],
            next: 0,
            lost: 0,
            fate: Fate::Lost,
            complete: false,
            transcript: Vec::new(),
            shown: None,
        }
    }

    pub fn follow(&mut self, state: &mut [u8]) {
        let number = follow(state, self.address, self.protected.into(), self.limit);
        assert_eq!(number, if self.followed { 25 } else { 0 });
        if !self.followed {
            self.followed = true;
            self.transcript.clear();
            self.shown = None;
            // Of a group under way, some packets came before.
            self.complete = false;
        }
    }

    pub fn leave(&mut self, state: &mut [u8]) {
        let number = leave(state, self.address);
        assert_eq!(number, if self.followed { 0 } else { 27 });
        self.followed = false;
    }

    /// The next packet as it comes out of the channel, if it does. What the setting refuses is lost.
    pub fn send(
        &mut self,
        random: &mut Xorshift,
        channel: &Channel,
        setting: u32,
    ) -> Option<Vec<u8>> {
        if self.next == 0 {
            self.compose(random);
        }
        self.fate = channel.fate(random, self.lost < MOST_LOST, self.protected);
        self.lost = match self.fate {
            Fate::Lost => self.lost + 1,
            _ => 0,
        };
        self.complete &= self.fate == Fate::Readable;
        let image = &self.images[94 * self.next..][..94];
        carried(random, self.fate, setting, self.protected, image)
    }

    fn compose(&mut self, random: &mut Xorshift) {
        let length = if self.protected { 180 } else { 360 };
        self.message = random.bytes::<360>()[..length].to_vec();
        let protection = self.protected.into();
        let number = write_group(self.address, protection, &self.message, &mut self.images);
        assert_eq!(number, 0);
        self.complete = true;
    }

    /// What the packet was answered with, if it came: whole exactly if it was the fourth that could be read.
    pub fn came(&mut self, state: &[u8], number: Option<u8>) {
        let whole = self.next == 3 && self.complete && self.followed;
        assert_eq!(number == Some(3), whole, "{number:?}");
        self.next = (self.next + 1) % 4;
        let Some(number) = number else {
            return;
        };
        match self.fate {
            Fate::Lost => assert!([20, 21, 27, 49].contains(&number), "{number}"),
            _ if !self.followed => assert_eq!(number, 27),
            Fate::Unreadable => assert_eq!(number, 31),
            Fate::Readable => assert!([1, 2, 3, 32].contains(&number), "{number}"),
        }
        if self.fate != Fate::Lost && self.followed {
            self.transcript.push(Event::Answered(number));
        }
        if number == 3 {
            let (_, at, length) = ask(state, self.address);
            assert!(state[at..at + length] == self.message, "the group sent");
            self.shown = Some(self.message.clone());
        }
    }

    /// A packet at its address that is none of its groups', a control packet mostly. Gives the number.
    pub fn send_other(&mut self, random: &mut Xorshift, state: &mut [u8], setting: u32) -> u8 {
        match random.below(7) {
            0 => self.foreign(random, state),
            _ => self.control(random, state, setting),
        }
    }

    /// A control packet, with any index and any useful bytes, anywhere between the packets of the groups: it is no group's
    /// packet, so nothing comes of it; and it is not the end of a lost run, so those lost are not counted anew.
    fn control(&mut self, random: &mut Xorshift, state: &mut [u8], setting: u32) -> u8 {
        let index = random.below(4) as u32;
        let mut image = write_image(self.address, index, CONTROL, &random.bytes());
        harm_front(random, setting, &mut image);
        let before = state.to_vec();
        let number = packet(state, &image);
        assert_eq!(number, if self.followed { 29 } else { 27 });
        assert_eq!(difference(state, &before), None);
        if self.followed {
            self.transcript.push(Event::Answered(number));
        }
        number
    }

    /// A packet of a type that the address does not carry: C7, F8 or none. Demand 3 does not speak of these. Each ends the group
    /// under way, whatever came of it, and marks a gap.
    fn foreign(&mut self, random: &mut Xorshift, state: &mut [u8]) -> u8 {
        let (kind, number) = [(0x55, 28), (RESERVED, 47), (SCRAMBLED, 30)][random.below(3)];
        let index = random.below(4) as u32;
        let image = write_image(self.address, index, kind, &random.bytes());
        let answer = packet(state, &image);
        assert_eq!(answer, if self.followed { number } else { 27 });
        if self.followed {
            self.transcript.push(Event::Answered(number));
            // Between two groups there is nothing to end. The next one is composed when its first packet is sent.
            self.complete = false;
        }
        answer
    }

    /// What is none of its packets and only looks like one, further off than the setting allows: nothing comes of it,
    /// whether the line is followed or not, and whatever it awaits.
    pub fn pass_by(&self, random: &mut Xorshift, state: &mut [u8], setting: u32) {
        let index = random.below(4) as u32;
        let mut image = write_image(self.address, index, 0, &random.bytes());
        go_beyond(random, setting, &mut image);
        let before = state.to_vec();
        assert_eq!(packet(state, &image), 49);
        assert_eq!(difference(state, &before), None);
    }

    pub fn subframe_ended(&mut self) {
        self.transcript.push(Event::SubframeEnded);
    }

    /// Ask's number is what the transcript says, and it shows what was handed out last. Gives the number.
    pub fn check(&self, state: &[u8]) -> u8 {
        let expected = if self.followed { self.called() } else { 27 };
        let (number, at, length) = ask(state, self.address);
        assert_eq!(number, expected);
        let group = self.shown.as_deref().filter(|_| self.followed);
        assert!(state[at..at + length] == *group.unwrap_or(&[]));
        let (number, lent, at, length) = board_text(state, self.address, NOTICE);
        let (text, expected) = match lent {
            Lent::State => (&state[at..at + length], 5),
            Lent::Notice => (&NOTICE[at..at + length], number),
        };
        assert_eq!(number, expected);
        assert!(
            text == if number == 5 {
                group.unwrap_or(&[])
            } else {
                NOTICE
            }
        );
        number
    }

    /// What the answers and the subframe ends since follow amount to.
    fn called(&self) -> u8 {
        let whole = |&event: &Event| event == Event::Answered(3);
        let Some(last) = self.transcript.iter().rposition(whole) else {
            return 4;
        };
        let since = &self.transcript[last + 1..];
        let ended = |&&event: &&Event| event == Event::SubframeEnded;
        let age = since.iter().filter(ended).count();
        if age >= self.limit as usize {
            7
        } else if gap(since) {
            6
        } else {
            5
        }
    }
}

/// A refusal that marks, or a start directly after a start or a packet held. A control packet's 29 is passed over, before a start
/// too: 3, 1, 29, 1 has a gap, and 3, 29, 1 has none.
fn gap(events: &[Event]) -> bool {
    let mut before = 3;
    for event in events {
        match *event {
            Event::SubframeEnded | Event::Answered(29) => {}
            Event::Answered(28 | 47 | 30 | 31 | 32) => return true,
            Event::Answered(1) if before != 3 => return true,
            Event::Answered(number) => before = number,
        }
    }
    false
}
