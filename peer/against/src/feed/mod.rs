//! The library as a program in Rust would use it: a type that owns a state, answers as enums, refusals as errors.
//!
//! A `Feed` is good from its making on, and every call keeps it so. The refusals 20 and 34 for the state therefore
//! cannot occur; those that remain stand at each call. For an example, see the first of the tests in tests/feed.rs. So
//! it is with a `Map`, the multiplex's map.

mod answers;
mod header;
mod map;
mod refusal;

pub use answers::{Protection, Taken, Worth};
pub use header::{read_header, read_header_plain, Header};
pub use map::{Map, Reach, Structure};
pub use refusal::Refusal;

use crate::calls;
use answers::{accepted, taken, worth};
use second::group::IMAGES;
use second::table::{Lent, STATE};

/// The state of sixteen followed addresses, and the library's calls on it.
#[derive(Clone)]
pub struct Feed {
    state: Box<[u8; STATE]>,
}

impl Feed {
    /// A state in which nothing is followed, with the setting 3.
    pub fn new() -> Feed {
        let mut state = Box::new([0; STATE]);
        accepted(calls::start(&mut state[..])).expect("a state of the right length");
        Feed { state }
    }

    /// A state that was kept, with its setting. Refused: 34, not good.
    pub fn from_bytes(bytes: &[u8; STATE]) -> Result<Feed, Refusal> {
        // No address is 0, so this is refused in any case, and for the address only if all before it is right.
        match calls::ask(bytes, 0) {
            (22, _, _) => Ok(Feed {
                state: Box::new(*bytes),
            }),
            (number, _, _) => Err(Refusal::of(number)),
        }
    }

    /// The bytes of the state, for keeping.
    pub fn bytes(&self) -> &[u8; STATE] {
        &self.state
    }

    /// Follows an address from now on; its groups are stale after so many subframes as the limit says. Refused: 22 for
    /// the address, 24 for the limit, 25 if it is followed already, 26 if sixteen others are.
    pub fn follow(
        &mut self,
        address: u32,
        protection: Protection,
        limit: u32,
    ) -> Result<(), Refusal> {
        let state = &mut self.state[..];
        accepted(calls::follow(state, address, protection as u32, limit))
    }

    /// Follows an address no longer, and forgets its group. Refused: 22, and 27 if it is not followed.
    pub fn leave(&mut self, address: u32) -> Result<(), Refusal> {
        accepted(calls::leave(&mut self.state[..], address))
    }

    /// Sets how many flips are put right in a packet's header at most, 0 to 3, from now on. With fewer, less noise of an
    /// empty channel is read as an address that is followed. Refused: 48, and the setting stays as it was.
    pub fn set_header_flips(&mut self, most: u32) -> Result<(), Refusal> {
        accepted(calls::set_header_flips(&mut self.state[..], most))
    }

    /// Takes a packet's image in. Refused, and nothing is changed: 20 for its length, 21 for its spare bit, 49 if its
    /// header has more flips than the setting says, 27 if its address is not followed, 29 if it is a control packet. Refused,
    /// and the group under way is given up: 28, 47 and 30 for its type, 31 for a word that cannot be read, with its place, 32
    /// for its index, with the one that was awaited.
    pub fn packet(&mut self, image: &[u8]) -> Result<Taken, Refusal> {
        taken(calls::packet_detail(&mut self.state[..], image))
    }

    /// A subframe has ended: every whole group is older by one.
    pub fn subframe_end(&mut self) {
        accepted(calls::subframe_end(&mut self.state[..])).expect("a good state");
    }

    /// What an address's last whole group is worth, and the group itself, 360 bytes or 180; no bytes if there is none.
    /// Refused: 22, 27.
    pub fn ask(&self, address: u32) -> Result<(Worth, &[u8]), Refusal> {
        let (number, at, length) = calls::ask(&self.state[..], address);
        let worth = worth(number)?;
        Ok((worth, &self.state[at..at + length]))
    }

    /// What a board may show: the group if it is fresh, and otherwise the notice, also where ask would be refused.
    pub fn board_text<'a>(
        &'a self,
        address: u32,
        notice: &'a [u8],
    ) -> (Result<Worth, Refusal>, &'a [u8]) {
        let (number, lent, at, length) = calls::board_text(&self.state[..], address, notice);
        let text = match lent {
            Lent::State => &self.state[at..at + length],
            Lent::Notice => &notice[at..at + length],
        };
        (worth(number), text)
    }
}

impl Default for Feed {
    fn default() -> Feed {
        Feed::new()
    }
}

/// The four images of a message. Refused: 22 for the address, 20 for the length of the message.
pub fn write_group(
    address: u32,
    protection: Protection,
    message: &[u8],
) -> Result<[u8; IMAGES], Refusal> {
    let mut images = [0; IMAGES];
    let number = calls::write_group(address, protection as u32, message, &mut images);
    accepted(number).map(|()| images)
}
