//! The fast packet call and the fast writer against the slow ones: what a packet is answered, with what its number carries,
//! and state and output byte for byte.

use second::samples::calls::{self, Call};
use second::samples::{difference, rounds, states};
use second::slot::SLOT;
use second::table::{Table, STATE};
use second::xorshift::Xorshift;
use second::{fast, group};

/// Makes a call on two copies of a state and gives its number.
fn agree(call: &Call, slow: &mut [u8], quick: &mut [u8]) -> u8 {
    let expected = call.make(slow);
    assert_eq!(call.make_fast(quick), expected, "{call:02x?}");
    assert_eq!(difference(quick, slow), None, "{call:02x?}");
    expected.number
}

#[test]
fn a_long_history() {
    let mut random = Xorshift::new(51);
    let (mut slow, mut quick) = (states::started(), states::started());
    let mut numbers = [0; 256];
    for _ in 0..rounds(40_000) {
        let call = calls::any(&mut random, &slow);
        let number = agree(&call, &mut slow, &mut quick);
        numbers[usize::from(number)] += 1;
    }
    // It is only worth something if it reaches every answer but 34.
    for number in (0..=7).chain(20..=32).chain(47..=49) {
        assert!(numbers[number] > 20, "{number}: {numbers:?}");
    }
}

#[test]
fn states_made_by_hand() {
    let mut random = Xorshift::new(52);
    for _ in 0..rounds(3_000) {
        let mut slow = states::good(&mut random);
        let mut quick = slow.clone();
        for _ in 0..6 {
            let table = Table::decode(&slow).expect("a good state");
            let used: Vec<_> = table.used().collect();
            let call = Call::Packet(calls::packet(&mut random, &used));
            agree(&call, &mut slow, &mut quick);
        }
    }
}

#[test]
fn bad_states() {
    let mut random = Xorshift::new(53);
    for _ in 0..rounds(10_000) {
        let mut slow = states::bad(&mut random);
        let mut quick = slow.clone();
        let call = Call::Packet(calls::packet(&mut random, &[]));
        let number = agree(&call, &mut slow, &mut quick);
        assert!([20, 34].contains(&number), "{call:02x?}");
    }
}

#[test]
fn wrong_lengths() {
    let image = second::image::write_image(17, 0, 0, &[7; 90]).repeat(3);
    for state_length in [0, 1, 94, SLOT, STATE - 1, STATE, STATE + 1, 2 * STATE] {
        for image_length in [0, 1, 93, 94, 95, 188, 282] {
            let (mut slow, mut quick) = (vec![0; state_length], vec![0; state_length]);
            let call = Call::Packet(image[..image_length].to_vec());
            let number = agree(&call, &mut slow, &mut quick);
            let right = (state_length, image_length) == (STATE, 94);
            assert_eq!(number, if right { 27 } else { 20 });
        }
    }
}

#[test]
fn written_groups() {
    let mut random = Xorshift::new(54);
    for _ in 0..rounds(4_000) {
        let address = [0, 1, 17, 1022, 1023, 1024, u32::MAX][random.below(7)];
        let protection = [0, 1, 0, 1, 2, u32::MAX][random.below(6)];
        let length = [180, 360, 180, 360, 0, 179, 361][random.below(7)];
        let room = [376, 376, 376, 0, 375, 377][random.below(6)];
        let message = &random.bytes::<361>()[..length];
        let (mut slow, mut quick) = ([0xA5; 377], [0xA5; 377]);
        let expected = group::write_group(address, protection, message, &mut slow[..room]);
        let found = fast::write_group(address, protection, message, &mut quick[..room]);
        let case = format!("{address} {protection} {length} {room}");
        assert_eq!((found, quick), (expected, slow), "{case}");
    }
}
