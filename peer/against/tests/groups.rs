//! The group writer: the library against the second implementation, the whole output compared, refused or not.

use against::calls::{ask, follow, packet, write_group};
use against::MARK;
use second::group;
use second::samples::rounds;
use second::samples::states::started;
use second::xorshift::Xorshift;

const MARGIN: usize = 64;

/// Writes on both sides, into rooms full of marks between marks. Gives the number.
fn agree(address: u32, protection: u32, message: &[u8], room: usize) -> u8 {
    let before = message.to_vec();
    let (mut ours, mut theirs) = (vec![MARK; room + 2 * MARGIN], vec![MARK; room + 2 * MARGIN]);
    let within = MARGIN..MARGIN + room;
    let found = write_group(address, protection, message, &mut ours[within.clone()]);
    let expected = group::write_group(address, protection, message, &mut theirs[within]);
    let case = format!("{address} {protection} {} {room}", message.len());
    assert_eq!((found, ours), (expected, theirs), "{case}");
    assert_eq!(message, before);
    found
}

#[test]
fn every_address() {
    let mut random = Xorshift::new(131);
    for address in 1..=1022 {
        let message: [u8; 360] = random.bytes();
        assert_eq!(agree(address, 0, &message, 376), 0);
        assert_eq!(agree(address, 1, &message[..180], 376), 0);
    }
}

#[test]
fn messages() {
    let mut random = Xorshift::new(132);
    for _ in 0..rounds(3_000) {
        let message: [u8; 360] = random.bytes();
        assert_eq!(agree(17, 0, &message, 376), 0);
        assert_eq!(agree(17, 1, &message[..180], 376), 0);
    }
}

/// Each bit of a message alone, and all 4,096 informations in some segment.
#[test]
fn bits_and_segments() {
    for bit in 0..8 * 360 {
        let mut message = [0; 360];
        message[bit / 8] = 1 << (bit % 8);
        agree(1022, 0, &message, 376);
        agree(1022, 1, &message[..180], 376);
    }
    for first in (0..4096u32).step_by(120) {
        let mut message = Vec::new();
        for pair in (first..first + 120).step_by(2) {
            let (low, high) = (pair % 4096, (pair + 1) % 4096);
            let both = low | high << 12;
            message.extend(&both.to_le_bytes()[..3]);
        }
        assert_eq!(agree(1, 1, &message, 376), 0);
    }
}

#[test]
fn refusals() {
    let message: [u8; 720] = Xorshift::new(133).bytes();
    for address in [0, 1, 17, 1022, 1023, 1024, 65_536 + 17, 1 << 31, u32::MAX] {
        for protection in [0, 1, 2, 255, 256, 257, 1 << 31, u32::MAX] {
            for length in [0, 1, 90, 179, 180, 181, 359, 360, 361, 720] {
                for room in [0, 1, 94, 375, 376, 377, 752] {
                    agree(address, protection, &message[..length], room);
                }
            }
        }
    }
}

/// What the library writes, it reads.
#[test]
fn written_groups_come_back() {
    let mut random = Xorshift::new(134);
    for round in 0..rounds(3_000) as u32 {
        let (address, protection) = (1 + round % 1022, round / 1022 % 2);
        let length = if protection == 1 { 180 } else { 360 };
        let message = &random.bytes::<360>()[..length];
        let mut images = [MARK; 376];
        assert_eq!(write_group(address, protection, message, &mut images), 0);
        let mut state = started();
        assert_eq!(follow(&mut state, address, protection, 1), 0);
        let answers: Vec<u8> = images
            .chunks(94)
            .map(|image| packet(&mut state, image))
            .collect();
        assert_eq!(answers, [1, 2, 2, 3]);
        assert_eq!(ask(&state, address), (5, 360, length));
        assert_eq!(state[360..360 + length], *message);
    }
}
