//! Groups of four packets (section 4 of the paper; document 02, Ask 6; 7.4.2.2 of the standard): taken in packet by packet,
//! and written.

use crate::bits;
use crate::golay;
use crate::image::{self, Received, HEADER_AT, IMAGE, PROTECTED, USEFUL, USEFUL_AT};
use crate::numbers::{
    done, refuse_unless, ADDRESS, DONE, HELD, LENGTH, NOT_FOLLOWED, OUT_OF_STEP, PROTECTION,
    SPARE_BIT, STARTED, TYPE_CONTROL, TYPE_RESERVED, TYPE_SCRAMBLED, TYPE_UNREADABLE, WHOLE,
    WORD_UNREADABLE,
};
use crate::slot::{group_length, packet_length, Slot, ADDRESSES, PACKETS, ROOM};
use crate::table::{self, Table};
use crate::types::DATA;

/// Bytes of the four images of a group.
pub const IMAGES: usize = PACKETS * IMAGE;

/// Section 4's table: a row for each index awaited, and in it an answer for each index that comes.
const ANSWERS: [[u8; 4]; 4] = [
    [STARTED, OUT_OF_STEP, OUT_OF_STEP, OUT_OF_STEP],
    [STARTED, HELD, OUT_OF_STEP, OUT_OF_STEP],
    [STARTED, OUT_OF_STEP, HELD, OUT_OF_STEP],
    [STARTED, OUT_OF_STEP, OUT_OF_STEP, WHOLE],
];

/// The refusals that end the group under way. A control packet, 29, is not one of them: "a control packet no longer drops a
/// group or marks a gap".
const DROPPING: [u8; 5] = [
    TYPE_UNREADABLE,
    TYPE_RESERVED,
    TYPE_SCRAMBLED,
    WORD_UNREADABLE,
    OUT_OF_STEP,
];

/// What a packet is answered: the number, and what goes with two of them.
#[derive(Clone, Copy, Debug, PartialEq, Eq)]
pub struct Detailed {
    pub number: u8,
    /// With 32 the index that was awaited, with 31 the place of the first word that cannot be read; otherwise 0.
    pub awaited_or_place: u8,
    /// With 32 the index that came; otherwise 0.
    pub came: u8,
}

/// A number that carries nothing.
impl From<u8> for Detailed {
    fn from(number: u8) -> Detailed {
        Detailed {
            number,
            awaited_or_place: 0,
            came: 0,
        }
    }
}

/// Takes an image in, and tells only the number.
pub fn packet(state: &mut [u8], image: &[u8]) -> u8 {
    packet_detail(state, image).number
}

/// Takes an image in. Of the two lengths it does not matter which is looked at first: both are refused alike.
pub fn packet_detail(state: &mut [u8], image: &[u8]) -> Detailed {
    if image.len() != IMAGE {
        return LENGTH.into();
    }
    table::change(state, |table| arrive(table, image))
}

fn arrive(table: &mut Table, image: &[u8]) -> Detailed {
    let row = bits::of_bytes(image);
    let spare = row[USEFUL_AT.end];
    if spare {
        return SPARE_BIT.into();
    }
    let header = bits::to_number(&row[HEADER_AT]);
    let (number, address, _, _) = golay::read_header_within(header, table.setting);
    // "A header refused so belongs to no slot and changes nothing."
    if number != DONE {
        return number.into();
    }
    match table.find(address.into()) {
        Some(slot) => slot.arrive(image),
        None => NOT_FOLLOWED.into(),
    }
}

impl Slot {
    /// What an image with this slot's address is answered, and what it does to the slot.
    fn arrive(&mut self, image: &[u8]) -> Detailed {
        let received = image::received(self.protected, image);
        let answer = self.answer(&received);
        let data = &received.bytes[..self.packet_length()];
        match answer.number {
            STARTED => self.start(data),
            HELD => self.hold(received.index.into(), data),
            WHOLE => self.finish(data),
            TYPE_CONTROL => {}
            number => {
                assert!(DROPPING.contains(&number), "{number} is no answer");
                self.drop_unfinished();
            }
        }
        answer
    }

    /// "32 carries the index awaited and the index that came; 31 carries the word's place, 0 to 29, the first that failed."
    /// Awaited is what was awaited before the packet came.
    fn answer(&self, received: &Received) -> Detailed {
        let number = match received.number {
            DONE => ANSWERS[usize::from(self.awaited)][usize::from(received.index)],
            refused => refused,
        };
        let (awaited_or_place, came) = match number {
            OUT_OF_STEP => (self.awaited, received.index),
            WORD_UNREADABLE => (received.place, 0),
            _ => (0, 0),
        };
        Detailed {
            number,
            awaited_or_place,
            came,
        }
    }

    /// A group begins. If another was under way, the rest of that is missing.
    fn start(&mut self, data: &[u8]) {
        self.gap |= self.awaited != 0;
        self.unfinished = [0; ROOM];
        self.put(0, data);
        self.awaited = 1;
    }

    fn hold(&mut self, index: usize, data: &[u8]) {
        self.put(index, data);
        self.awaited += 1;
    }

    /// The last packet makes the group whole. What lay behind it in the room, in a state made by hand, is not shown.
    fn finish(&mut self, data: &[u8]) {
        self.put(PACKETS - 1, data);
        let length = self.group_length();
        self.group = self.unfinished;
        self.group[length..].fill(0);
        self.unfinished = [0; ROOM];
        self.whole = true;
        self.age = 0;
        self.gap = false;
        self.awaited = 0;
    }

    fn drop_unfinished(&mut self) {
        self.unfinished = [0; ROOM];
        self.gap = true;
        self.awaited = 0;
    }

    /// Puts a packet's bytes in their place of the room, and nothing beside them.
    fn put(&mut self, index: usize, data: &[u8]) {
        let at = index * data.len();
        self.unfinished[at..at + data.len()].copy_from_slice(data);
    }
}

/// The four images of a message. A refused call leaves the output as it is.
pub fn write_group(address: u32, protection: u32, message: &[u8], output: &mut [u8]) -> u8 {
    done(write(address, protection, message, output))
}

fn write(address: u32, protection: u32, message: &[u8], output: &mut [u8]) -> Result<(), u8> {
    refuse_unless(ADDRESSES.contains(&address), ADDRESS)?;
    refuse_unless(protection <= 1, PROTECTION)?;
    let protected = protection == 1;
    refuse_unless(message.len() == group_length(protected), LENGTH)?;
    refuse_unless(output.len() == IMAGES, LENGTH)?;
    let parts = message.chunks(packet_length(protected));
    for ((index, part), place) in (0..).zip(parts).zip(output.chunks_mut(IMAGE)) {
        let image = image::write_image(address, index, DATA, &useful(protected, part));
        place.copy_from_slice(&image);
    }
    Ok(())
}

/// A packet's useful bytes: the part of the message itself, or thirty words in its place.
fn useful(protected: bool, part: &[u8]) -> [u8; USEFUL] {
    if protected {
        let data: &[u8; PROTECTED] = part.try_into().expect("45 bytes");
        image::protect(data)
    } else {
        part.try_into().expect("90 bytes")
    }
}
