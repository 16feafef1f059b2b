//! Calls on a state, and the bare calls. What each row means stands in the heads of `crates/calls` and `crates/coderows`.

use crate::row::{byte, digest, fill, front, put, turn, wide};
use crate::Machine;
use second::golay::{read_header, read_header_within, read_word, write_header, write_word};
use second::group::{packet, packet_detail, write_group};
use second::image::{protect, received, write_image, IMAGE, PROTECTED, USEFUL};
use second::plain::read_header_plain;
use second::table::{ask, board_text, follow, leave, set_header_flips, start, subframe_end, Lent, STATE};
use second::types::{read_type, write_type};

/// Addresses that a header can have, and headers.
const ADDRESSES: u32 = 1 << 10;
const HEADERS: u32 = 1 << 23;

pub struct Calls {
    state: Vec<u8>,
    lent: usize,
    images: Vec<u8>,
    message: Vec<u8>,
}

impl Calls {
    pub fn new() -> Calls {
        Calls {
            state: vec![0; STATE + 1],
            lent: STATE,
            images: vec![0; 5 * IMAGE + 1],
            message: vec![0; 361],
        }
    }

    fn state(&mut self) -> &mut [u8] {
        &mut self.state[..self.lent]
    }

    fn changed(&mut self, call: impl FnOnce(&mut [u8]) -> u8) -> Option<Vec<u64>> {
        let number = call(self.state());
        Some(vec![number.into(), digest(self.state())])
    }

    fn by_hand(&mut self, name: &str, args: &[u64]) -> Option<Vec<u64>> {
        Some(match (name, args) {
            ("lend", &[len]) => {
                self.lent = self.state.len().min(len as usize);
                vec![self.lent as u64]
            }
            ("state", [at, values @ ..]) => put(self.state(), *at, values),
            ("images", [at, values @ ..]) => put(&mut self.images, *at, values),
            ("message", [at, values @ ..]) => put(&mut self.message, *at, values),
            ("fill-state", &[from, step]) => fill(self.state(), from, step),
            ("fill-images", &[from, step]) => fill(&mut self.images, from, step),
            ("fill-message", &[from, step]) => fill(&mut self.message, from, step),
            ("turn", [from, bits @ ..]) => turn(&mut self.images, *from, bits),
            _ => return None,
        })
    }

    fn on_state(&mut self, name: &str, args: &[u64]) -> Option<Vec<u64>> {
        match (name, args) {
            ("start", []) => self.changed(start),
            ("follow", &[address, protection, limit]) => {
                self.changed(|state| follow(state, wide(address), wide(protection), wide(limit)))
            }
            ("leave", &[address]) => self.changed(|state| leave(state, wide(address))),
            ("end", []) => self.changed(subframe_end),
            ("set-header-flips", &[most]) => self.changed(|state| set_header_flips(state, wide(most))),
            ("packet", &[image, len]) => {
                let image = self.image(image, len)?;
                self.changed(|state| packet(state, &image))
            }
            ("detail", &[image, len]) => {
                let image = self.image(image, len)?;
                let it = packet_detail(self.state(), &image);
                let carried = [it.number, it.awaited_or_place, it.came].map(u64::from);
                Some([&carried[..], &[digest(self.state())]].concat())
            }
            ("ask", &[address]) => {
                let (number, at, len) = ask(self.state(), wide(address));
                Some(shown(number, at, &self.state[at..at + len]))
            }
            ("board", &[address, len]) => Some(self.board(address, len)),
            ("write", &[address, protection, len, out]) => {
                let message = front(&self.message, len);
                let output = &mut self.images[..out as usize];
                let number = write_group(wide(address), wide(protection), message, output);
                Some(vec![number.into(), digest(&self.images)])
            }
            _ => None,
        }
    }

    /// The image that a row names, and as many of its bytes as it lends.
    fn image(&self, image: u64, len: u64) -> Option<Vec<u8>> {
        let images = self.images.get(IMAGE * image as usize..)?;
        Some(front(images, len).to_vec())
    }

    fn board(&self, address: u64, len: u64) -> Vec<u64> {
        let notice = front(&self.message, len);
        match board_text(&self.state[..self.lent], wide(address), notice) {
            (number, Lent::State, at, len) => shown(number, 0, &self.state[at..at + len]),
            (number, Lent::Notice, at, len) => shown(number, 0, &notice[at..at + len]),
        }
    }

    fn on_images(&mut self, name: &str, args: &[u64]) -> Option<Vec<u64>> {
        match (name, args) {
            ("image", &[address, index, kind]) => {
                let useful = self.message[..USEFUL].try_into().expect("90 bytes");
                let image = write_image(wide(address), wide(index), byte(kind), useful);
                self.images[..IMAGE].copy_from_slice(&image);
                Some(vec![digest(&self.images)])
            }
            ("protect", []) => {
                let useful = protect(self.message[..PROTECTED].try_into().expect("45 bytes"));
                self.message[..USEFUL].copy_from_slice(&useful);
                Some(vec![digest(&self.message)])
            }
            ("received", &[protection, len]) => {
                let it = received(protection == 1, front(&self.images, len));
                Some(vec![it.number.into(), it.place.into(), it.index.into(), digest(&it.bytes)])
            }
            _ => None,
        }
    }
}

impl Machine for Calls {
    fn answer(&mut self, name: &str, args: &[u64]) -> Option<Vec<u64>> {
        self.by_hand(name, args)
            .or_else(|| self.on_state(name, args))
            .or_else(|| self.on_images(name, args))
            .or_else(|| on_codes(name, args))
    }
}

fn shown(number: u8, at: usize, part: &[u8]) -> Vec<u64> {
    vec![number.into(), at as u64, part.len() as u64, digest(part)]
}

fn on_codes(name: &str, args: &[u64]) -> Option<Vec<u64>> {
    match (name, args) {
        ("read-header", &[n]) => Some(code(0, wide(n), 0)),
        ("write-header", &[address, index]) => Some(code(1, wide(address), wide(index))),
        ("read-word", &[n]) => Some(code(2, wide(n), 0)),
        ("write-word", &[n]) => Some(code(3, wide(n), 0)),
        ("read-type", &[n]) => Some(code(4, wide(n), 0)),
        ("write-type", &[n]) => Some(code(5, wide(n), 0)),
        ("read-header-within", &[n, most]) => Some(code(6, wide(n), wide(most))),
        ("read-header-plain", &[n, most]) => Some(code(7, wide(n), wide(most))),
        ("many", &[call, first, step, times]) => Some(vec![many(call, first, step, times)]),
        _ => None,
    }
}

/// A call by its number, with the second argument of those that have one: an index, a setting.
fn code(call: u64, n: u32, other: u32) -> Vec<u64> {
    match call {
        0 => four(read_header(n)),
        1 => two(write_header(n, other)),
        2 => {
            let (number, information, flips) = read_word(n);
            vec![number.into(), information.into(), flips.into()]
        }
        3 => two(write_word(n)),
        4 => {
            let (number, value, flips) = read_type(byte(n.into()));
            vec![number.into(), value.into(), flips.into()]
        }
        5 => {
            let (number, value) = write_type(byte(n.into()));
            two((number, value.into()))
        }
        6 => four(read_header_within(n, other)),
        7 => four(read_header_plain(n, other)),
        _ => panic!("many of no call"),
    }
}

fn four((number, address, index, flips): (u8, u16, u8, u8)) -> Vec<u64> {
    vec![number.into(), address.into(), index.into(), flips.into()]
}

fn two((number, value): (u8, u32)) -> Vec<u64> {
    vec![number.into(), value.into()]
}

/// Four numbers of each answer, of four bytes. One number stands for both arguments of a call that has two.
fn many(call: u64, first: u64, step: u64, times: u64) -> u64 {
    let answers = (0..times).map(|k| {
        let n = wide(first + k * step);
        let mut answer = match call {
            1 => code(1, n % ADDRESSES, n / ADDRESSES),
            6 | 7 => code(call, n % HEADERS, n / HEADERS),
            _ => code(call, n, 0),
        };
        answer.resize(4, 0);
        answer
    });
    let bytes: Vec<u8> = answers.flatten().flat_map(|n| wide(n).to_le_bytes()).collect();
    digest(&bytes)
}
