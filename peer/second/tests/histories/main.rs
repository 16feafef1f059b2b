//! Random histories, and a bookkeeping apart that says what must come of them: a group is handed out exactly if its
//! four packets came and could be read, as long as no more than three are lost in a row, whatever control packets stand
//! between, and ask's number follows from the answers alone. A packet that the setting refuses counts as lost. The
//! bookkeeping knows what was set and sent and what was done to it; it does not know the state.

mod channel;
mod line;

use channel::Channel;
use line::Line;
use second::golay::MOST_FLIPS;
use second::group::{packet, write_group};
use second::image::{write_image, TYPE_AT};
use second::samples::states::started;
use second::samples::{flip, rounds};
use second::table::{ask, follow, leave, set_header_flips, start, subframe_end, STATE};
use second::types::CONTROL;
use second::xorshift::Xorshift;

const STEPS: usize = 1_500;

/// How often each answer came, and each number of ask.
type Counts = [usize; 50];

#[test]
fn exactly_the_groups_that_came_and_fresh_by_the_transcript() {
    let mut random = Xorshift::new(81);
    let mut counts = [0; 50];
    for round in 0..rounds(12) {
        let count = [1, 2, 5, 16][round % 4];
        let channel = Channel::new(&mut random);
        history(&mut random, count, channel, &mut counts);
    }
    // It is only worth something if all of these happen.
    for number in (1..=7).chain([20, 21, 27, 47, 49]).chain(28..=32) {
        assert!(counts[number] > 30, "{number}: {counts:?}");
    }
}

fn history(random: &mut Xorshift, count: usize, channel: Channel, counts: &mut Counts) {
    let mut state = vec![0xA5; STATE];
    assert_eq!(start(&mut state), 0);
    let mut lines: Vec<Line> = (0..count)
        .map(|k| Line::new(random, 60 * k as u32))
        .collect();
    for line in &mut lines {
        line.follow(&mut state);
    }
    let mut setting = MOST_FLIPS;
    for _ in 0..STEPS {
        let line = random.below(count);
        match random.below(64) {
            0 => lines[line].leave(&mut state),
            1..=3 => lines[line].follow(&mut state),
            4..=7 => end_subframe(&mut state, &mut lines),
            8..=11 => disturb(random, &mut state),
            12 if setting < MOST_FLIPS => lines[line].pass_by(random, &mut state, setting),
            13 => {
                setting = random.below(4) as u32;
                assert_eq!(set_header_flips(&mut state, setting), 0);
            }
            14..=20 => {
                let number = lines[line].send_other(random, &mut state, setting);
                counts[usize::from(number)] += 1;
            }
            _ => {
                let image = lines[line].send(random, &channel, setting);
                let number = image.map(|image| packet(&mut state, &image));
                lines[line].came(&state, number);
                counts[usize::from(number.unwrap_or(0))] += 1;
            }
        }
        for line in &lines {
            counts[usize::from(line.check(&state))] += 1;
        }
    }
}

fn end_subframe(state: &mut [u8], lines: &mut [Line]) {
    assert_eq!(subframe_end(state), 0);
    for line in lines {
        line.subframe_ended();
    }
}

/// What is no business of any line: other addresses' packets, and calls that are refused.
fn disturb(random: &mut Xorshift, state: &mut [u8]) {
    let index = random.below(4) as u32;
    let stranger = 1001 + random.below(20) as u32;
    let image = write_image(stranger, index, 0, &random.bytes());
    assert_eq!(packet(state, &image), 27);
    assert_eq!(set_header_flips(state, 4 + random.number() % 256), 48);
    assert_eq!(follow(state, stranger, 2, 5), 23);
    assert_eq!(follow(state, stranger, 1, 0), 24);
    assert_eq!(leave(state, stranger), 27);
    assert_eq!(subframe_end(&mut state[1..]), 20);
}

/// Why it has to be three: of four packets lost in a row inside an open group, two-bit indices show nothing.
#[test]
fn four_lost_in_a_row_are_not_seen() {
    let (mut one, mut other) = ([0; 376], [0; 376]);
    assert_eq!(write_group(17, 0, &[1; 360], &mut one), 0);
    assert_eq!(write_group(17, 0, &[2; 360], &mut other), 0);
    let mut state = started();
    assert_eq!(follow(&mut state, 17, 0, 2), 0);
    // Packet 0 of one group, and 1 to 3 of the next.
    let came = one[..94].chunks(94).chain(other[94..].chunks(94));
    let answers: Vec<u8> = came.map(|image| packet(&mut state, image)).collect();
    assert_eq!(answers, [1, 2, 2, 3]);
    assert_eq!(ask(&state, 17).0, 5);
    assert_eq!(state[360..450], [1; 90]);
    assert_eq!(state[450..720], [2; 270]);
}

/// Three lost in a row always are, wherever they are lost.
#[test]
fn three_lost_in_a_row_are_seen() {
    let mut images = [0; 376];
    assert_eq!(write_group(17, 0, &[1; 360], &mut images), 0);
    for first in 1..=4 {
        let mut state = started();
        assert_eq!(follow(&mut state, 17, 0, 2), 0);
        let came = (0..12).filter(|k| !(first..first + 3).contains(k));
        let mut whole = Vec::new();
        for k in came {
            let image = &images[94 * (k % 4)..][..94];
            if packet(&mut state, image) == 3 {
                whole.push(k / 4);
            }
        }
        // The groups that lost none of their packets.
        let lost = [first / 4, (first + 2) / 4];
        let expected: Vec<usize> = (0..3).filter(|group| !lost.contains(group)).collect();
        assert_eq!(whole, expected);
    }
}

/// A state in which address 17 is followed as plain, and the images of two groups, of ones and of twos.
fn two_groups() -> (Vec<u8>, [[u8; 376]; 2]) {
    let mut state = started();
    assert_eq!(follow(&mut state, 17, 0, 2), 0);
    let groups = [1, 2].map(|byte| {
        let mut images = [0; 376];
        assert_eq!(write_group(17, 0, &[byte; 360], &mut images), 0);
        images
    });
    (state, groups)
}

/// Why a control packet must not end a lost run: two lost before it and two behind it are four, of which nothing shows.
#[test]
fn a_control_packet_is_not_the_end_of_a_lost_run() {
    let (mut state, [one, other]) = two_groups();
    let control = write_image(17, 3, CONTROL, &[7; 90]);
    assert_eq!(packet(&mut state, &one[..94]), 1);
    // Packets 1 and 2 of the first group are lost, and behind this 3 and the next group's first.
    assert_eq!(packet(&mut state, &control), 29);
    let answers: Vec<u8> = other[94..]
        .chunks(94)
        .map(|image| packet(&mut state, image))
        .collect();
    assert_eq!(answers, [2, 2, 3]);
    assert_eq!([state[360], state[719]], [1, 2]);
}

/// Why no type byte may have more than two flips, seen from data: with four it may read as a control packet's, and the packet is
/// as good as lost, without a mark.
#[test]
fn data_may_pass_for_a_control_packet() {
    let (mut state, [mut one, _]) = two_groups();
    for bit in [0, 1, 2, 3] {
        flip(&mut one[94..], TYPE_AT.start + bit);
    }
    let answers: Vec<u8> = one
        .chunks(94)
        .map(|image| packet(&mut state, image))
        .collect();
    assert_eq!(answers, [1, 29, 32, 32]);
    // With three more lost behind it, a group is handed out that nobody sent.
    let (mut state, [_, other]) = two_groups();
    let came = one[..188].chunks(94).chain(other[94..].chunks(94));
    let answers: Vec<u8> = came.map(|image| packet(&mut state, image)).collect();
    assert_eq!(answers, [1, 29, 2, 2, 3]);
    assert_eq!([state[360], state[719]], [1, 2]);
}

/// And seen from control packets: with three flips one may read as no type, or as C7 or F8, and end a group all of whose packets
/// came.
#[test]
fn a_control_packet_may_pass_for_another() {
    let cases = [([0, 1, 2], 30), ([3, 4, 5], 47), ([0, 1, 3], 28)];
    for (bits, number) in cases {
        let (mut state, [one, _]) = two_groups();
        let mut control = write_image(17, 0, CONTROL, &[7; 90]);
        for bit in bits {
            flip(&mut control, TYPE_AT.start + bit);
        }
        assert_eq!(packet(&mut state, &one[..94]), 1);
        assert_eq!(packet(&mut state, &control), number);
        assert_eq!(packet(&mut state, &one[94..188]), 32);
    }
}
