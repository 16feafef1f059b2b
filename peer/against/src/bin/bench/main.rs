//! Measures the library against `second::fast`, and the record program against the second one's: the same inputs, in one run, in rounds
//! that alternate. Run by hand.

mod codec2;
mod inputs;
mod maps;
mod programs;
mod rival;
mod rounds;

use inputs::{Image, State};
use rounds::Row;
use second::golay::MOST_FLIPS;
use second::group::IMAGES;
use second::image::USEFUL;
use std::hint::black_box;

fn main() {
    rounds::heading();
    words("read word, clean", &inputs::words(0));
    words("read word, 3 flips", &inputs::words(3));
    headers("read header, clean", &inputs::headers(0));
    headers("read header, 3 flips", &inputs::headers(3));
    headers_within("read header at setting 3, 3 flips", 3, &inputs::headers(3));
    headers_within("read header at setting 2, 3 flips: 49", 2, &inputs::headers(3));
    headers_plain("read header, plain: clean", &inputs::few_headers(0));
    headers_plain("read header, plain: 1 flip", &inputs::few_headers(1));
    headers_plain("read header, plain: 2 flips", &inputs::few_headers(2));
    headers_plain("read header, plain: 3 flips", &inputs::few_headers(3));
    headers_plain("read header, plain: the last pattern", &inputs::headers_tried_last());
    images("received plain, clean", false, &inputs::plain());
    images("received protected, clean", true, &inputs::protected(0));
    let damaged = inputs::protected(3);
    images("received protected, 3 flips a word", true, &damaged);
    for count in [1, 8, 16] {
        packets("plain, clean", count, false, 0, MOST_FLIPS);
        packets("plain, header 3 flips", count, false, 3, MOST_FLIPS);
        packets("protected, clean", count, true, 0, MOST_FLIPS);
        packets("protected, 3 flips all over", count, true, 3, MOST_FLIPS);
    }
    packets("plain, clean, setting 0", 16, false, 0, 0);
    groups("write group, plain", false);
    groups("write group, protected", true);
    maps::measure();
    codec2::measure();
    programs::measure();
}

fn words(name: &str, words: &[u32]) {
    let read = black_box(rival::READ_WORD);
    let ours = || read_all(against::read_word_into, words);
    let fast = || read_all(read, words);
    Row::measure(words.len(), ours, fast).print(name);
}

fn headers(name: &str, headers: &[u32]) {
    let read = black_box(rival::READ_HEADER);
    let ours = || headers.iter().map(|&header| sum(against::read_header(header))).sum();
    let fast = || headers.iter().map(|&header| sum(read(header))).sum();
    Row::measure(headers.len(), ours, fast).print(name);
}

fn headers_within(name: &str, most: u32, headers: &[u32]) {
    let read = black_box(rival::READ_HEADER_WITHIN);
    let ours = || headers.iter().map(|&header| sum(against::read_header_within(header, most))).sum();
    let fast = || headers.iter().map(|&header| sum(read(header, most))).sum();
    Row::measure(headers.len(), ours, fast).print(name);
}

/// The reader that names no table beside the second program's, which tries the same patterns in the same order.
fn headers_plain(name: &str, headers: &[u32]) {
    let read = black_box(rival::READ_HEADER_PLAIN);
    let ours = || headers.iter().map(|&header| sum(against::read_header_plain(header, MOST_FLIPS))).sum();
    let plain = || headers.iter().map(|&header| sum(read(header, MOST_FLIPS))).sum();
    Row::measure(headers.len(), ours, plain).print(name);
}

fn sum((number, address, index, flips): (u8, u16, u8, u8)) -> u64 {
    u64::from(number) + u64::from(address) + u64::from(index) + u64::from(flips)
}

fn images(name: &str, protected: bool, images: &[Image]) {
    let take = black_box(rival::RECEIVED);
    let ours = || take_all(against::received_into, protected, images);
    let fast = || take_all(take, protected, images);
    Row::measure(images.len(), ours, fast).print(name);
}

/// The packet call on a state for each side, with so many slots in use, at a setting. Every group that begins becomes whole.
fn packets(name: &str, count: u32, protected: bool, flips: usize, most: u32) {
    let take = black_box(rival::PACKET);
    let images = inputs::groups(count, protected, flips);
    let mut states = [inputs::following(count, protected, most); 2];
    let [mine, other] = &mut states;
    let ours = || bring_all(against::calls::packet, mine, &images);
    let fast = || bring_all(take, other, &images);
    let name = format!("packet {name}, {count} in use");
    Row::measure(images.len(), ours, fast).print(&name);
    assert!(states[0] == states[1], "both sides leave the same state");
}

fn groups(name: &str, protected: bool) {
    let write = black_box(rival::WRITE_GROUP);
    let messages = inputs::messages(protected);
    let ours = || write_all(against::calls::write_group, protected, &messages);
    let fast = || write_all(write, protected, &messages);
    Row::measure(messages.len(), ours, fast).print(name);
}

/// A sum over all answers, so that none of them can be left out.
#[inline(always)]
fn read_all(read: impl Fn(u32, &mut u16, &mut u8) -> u8, words: &[u32]) -> u64 {
    let (mut information, mut flips) = (0, 0);
    let mut sum = 0;
    for &word in words {
        let number = read(word, &mut information, &mut flips);
        sum += u64::from(number) + u64::from(information) + u64::from(flips);
    }
    sum
}

#[inline(always)]
fn take_all(
    take: impl Fn(bool, &[u8], &mut u8, &mut u8, &mut [u8; USEFUL]) -> u8,
    protected: bool,
    images: &[Image],
) -> u64 {
    let (mut place, mut index, mut bytes) = (0, 0, [0; USEFUL]);
    let mut sum = 0;
    for image in images {
        let number = take(protected, image, &mut place, &mut index, &mut bytes);
        black_box(&bytes);
        sum += u64::from(number) + u64::from(place) + u64::from(index) + u64::from(bytes[0]);
    }
    sum
}

#[inline(always)]
fn bring_all(take: impl Fn(&mut [u8], &[u8]) -> u8, state: &mut State, images: &[Image]) -> u64 {
    let mut sum = 0;
    for image in images {
        sum += u64::from(take(state, image));
        black_box(&state);
    }
    sum
}

#[inline(always)]
fn write_all(
    write: impl Fn(u32, u32, &[u8], &mut [u8]) -> u8,
    protected: bool,
    messages: &[Vec<u8>],
) -> u64 {
    let mut output = [0; IMAGES];
    let mut sum = 0;
    for message in messages {
        let number = write(17, protected.into(), message, &mut output);
        black_box(&output);
        sum += u64::from(number) + u64::from(output[5]);
    }
    sum
}
