//! Writes a morning's feed as records to standard output: `samples/morning.rec` is what it writes.
//!
//! Address 17 carries a protected platform list with limit 3, address 300 a plain one with limit 2. Then: damage that the code
//! corrects, damage that it does not, a lost packet, a moved address that falls silent, and a bad record at the end.

use std::io::{self, Write};

use second::group::write_group;

const PACKET: u8 = 1;
const SUBFRAME_END: u8 = 2;
const FOLLOW: u8 = 3;
const LEAVE: u8 = 4;
const ASK: u8 = 5;

/// The records so far.
struct Feed(Vec<u8>);

impl Feed {
    fn record(&mut self, kind: u8, body: &[u8]) {
        let length = 2 + body.len() as u16;
        self.0.extend(length.to_be_bytes());
        self.0.extend([1, kind]);
        self.0.extend(body);
    }

    fn follow(&mut self, address: u16, protection: u8, limit: u16) {
        let mut body = address.to_be_bytes().to_vec();
        body.push(protection);
        body.extend(limit.to_be_bytes());
        self.record(FOLLOW, &body);
    }

    fn ask(&mut self, address: u16) {
        self.record(ASK, &address.to_be_bytes());
    }

    fn ends(&mut self, count: usize) {
        for _ in 0..count {
            self.record(SUBFRAME_END, &[]);
        }
    }

    /// The packets of a list, but for those that are lost; `damage` may change an image.
    fn list(&mut self, address: u16, text: &str, lost: &[usize], damage: impl Fn(usize, &mut [u8])) {
        let protection = u32::from(address == 17);
        let mut message = vec![0; if protection == 1 { 180 } else { 360 }];
        message[..text.len()].copy_from_slice(text.as_bytes());
        let mut images = [0; 376];
        assert_eq!(write_group(address.into(), protection, &message, &mut images), 0);
        for (index, image) in images.chunks_exact_mut(94).enumerate() {
            damage(index, image);
            if !lost.contains(&index) {
                self.record(PACKET, image);
            }
        }
    }
}

fn intact(_: usize, _: &mut [u8]) {}

/// Three flips in the header, two in the type byte, three in the first word.
fn corrected(_: usize, image: &mut [u8]) {
    image[0] ^= 0b0000_0111;
    image[3] ^= 0b0000_0011;
    image[4] ^= 0b0000_0111;
}

/// Four flips in a word of the third packet.
fn unreadable(index: usize, image: &mut [u8]) {
    if index == 2 {
        image[10] ^= 0b0000_1111;
    }
}

fn main() -> io::Result<()> {
    let mut feed = Feed(Vec::new());
    feed.follow(17, 1, 3);
    feed.follow(300, 0, 2);
    feed.ask(17);
    feed.list(17, "06:58 Ulaangom, platform 2", &[], intact);
    feed.list(300, "06:58 Ulaangom, platform 2", &[], intact);
    feed.ask(17);
    feed.ends(1);
    feed.list(17, "07:04 Khovd, platform 1", &[], corrected);
    feed.ask(17);
    feed.list(17, "07:10 Darkhan, platform 3", &[], unreadable);
    feed.ask(17);
    feed.list(17, "07:10 Darkhan, platform 3", &[], intact);
    feed.ask(17);
    feed.list(300, "07:10 Darkhan, platform 3", &[1], intact);
    feed.ask(300);
    // The list moves to address 301, which nobody follows.
    feed.list(301, "07:20 Erdenet, platform 4", &[], intact);
    feed.ends(1);
    feed.ask(17);
    feed.ends(2);
    feed.ask(17);
    feed.ask(300);
    feed.record(LEAVE, &300u16.to_be_bytes());
    feed.ask(300);
    feed.0.extend([0, 3, 2, 2, 0]);
    io::stdout().write_all(&feed.0)
}
