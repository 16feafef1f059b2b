//! What a packet is answered and what its number carries (document 02, Ask 6), in states at every step of a group: the library
//! against both other implementations, and against what the request says.

use against::both::{Both, Other};
use second::group::{packet, write_group, Detailed};
use second::image::{protect, write_image, USEFUL_AT};
use second::samples::calls::Call;
use second::samples::states::{self, started};
use second::samples::{difference, flip, flip_some, rounds, word_at, WORDS};
use second::slot::SLOT;
use second::table::{follow, set_header_flips};
use second::types::{CONTROL, DATA, RESERVED, SCRAMBLED, TYPES};
use second::xorshift::Xorshift;

const OTHERS: [Other; 2] = [Call::make, Call::make_fast];
/// Where a slot's protection and its awaited index stand.
const PROTECTION: usize = 732;
const AWAITED: usize = 733;

/// A state in which address 17 has had a whole group, and of another one the packets before the one that it awaits.
fn awaiting(protection: u32, awaited: usize) -> Vec<u8> {
    let mut state = started();
    assert_eq!(follow(&mut state, 17, protection, 2), 0);
    let message = &[7; 360][..if protection == 1 { 180 } else { 360 }];
    let mut images = [0; 376];
    assert_eq!(write_group(17, protection, message, &mut images), 0);
    for image in images.chunks(94).chain(images.chunks(94).take(awaited)) {
        assert!(packet(&mut state, image) <= 3);
    }
    state
}

/// An image for address 17, sound but for its type.
fn image(random: &mut Xorshift, protection: u32, index: u32, kind: u8) -> Vec<u8> {
    let useful = if protection == 1 {
        protect(&random.bytes())
    } else {
        random.bytes()
    };
    write_image(17, index, kind, &useful).to_vec()
}

/// Takes an image in on all sides. Gives the answer, and whether a byte of the state is another.
fn take(state: &[u8], image: &[u8]) -> (Detailed, bool) {
    let [one, other] = OTHERS.map(|other| {
        let mut both = Both::new(state, other);
        let answer = both.make(&Call::Packet(image.to_vec()));
        let changed = difference(both.state(), state).is_some();
        (answer.packet.expect("a packet's answer"), changed)
    });
    assert_eq!(one, other);
    one
}

fn told(number: u8, awaited_or_place: usize, came: u32) -> Detailed {
    Detailed {
        number,
        awaited_or_place: awaited_or_place as u8,
        came: came as u8,
    }
}

/// What a type byte that is no data's is refused with.
fn refused(byte: u8) -> Option<u8> {
    let near = |kind: u8| (byte ^ kind).count_ones() <= 2;
    match TYPES.into_iter().find(|&kind| near(kind)) {
        None => Some(28),
        Some(CONTROL) => Some(29),
        Some(RESERVED) => Some(47),
        Some(SCRAMBLED) => Some(30),
        Some(_) => None,
    }
}

/// Every byte as a type byte at every step of a group, with every index. Of a control packet nothing comes; every other that is no
/// data's changes the state.
#[test]
fn every_type_byte_at_every_step() {
    let mut random = Xorshift::new(151);
    for protection in 0..2 {
        for awaited in 0..4 {
            let state = awaiting(protection, awaited);
            for byte in 0..=255 {
                let index = random.below(4) as u32;
                let image = image(&mut random, protection, index, byte);
                let (answer, changed) = take(&state, &image);
                if let Some(number) = refused(byte) {
                    assert_eq!(answer, Detailed::from(number), "{byte:02x} {awaited}");
                    assert_eq!(changed, number != 29, "{byte:02x} {awaited}");
                } else {
                    assert!([1, 2, 3, 32].contains(&answer.number), "{byte:02x}");
                }
            }
        }
    }
}

/// Every pair of the index that is awaited and the one that comes. Only 32 tells them.
#[test]
fn every_pair_of_indices() {
    let mut random = Xorshift::new(153);
    for protection in 0..2 {
        for awaited in 0..4 {
            for came in 0..4 {
                let state = awaiting(protection, awaited);
                let image = image(&mut random, protection, came, DATA);
                let expected = match came {
                    0 => told(1, 0, 0),
                    _ if came as usize != awaited => told(32, awaited, came),
                    3 => told(3, 0, 0),
                    _ => told(2, 0, 0),
                };
                assert_eq!(take(&state, &image).0, expected, "{awaited} {came}");
            }
        }
    }
}

/// A word that fails at every place, alone and with others behind it, whatever is awaited and whatever comes.
#[test]
fn every_place_of_a_bad_word() {
    let mut random = Xorshift::new(155);
    for place in 0..WORDS {
        for others in 0..WORDS.min(4) {
            let state = awaiting(1, random.below(4));
            let index = random.below(4) as u32;
            let mut image = image(&mut random, 1, index, DATA);
            flip_some(&mut random, &mut image, word_at(place), 4);
            for _ in 0..others {
                let behind = place + random.below(WORDS - place);
                if behind != place {
                    // Four flips twice may be none. Those at the first place stand.
                    flip_some(&mut random, &mut image, word_at(behind), 4);
                }
            }
            assert_eq!(take(&state, &image), (told(31, place, 0), true));
            // Where the type is refused, no word is looked at.
            for bit in [23, 25, 27] {
                flip(&mut image, bit);
            }
            assert_eq!(take(&state, &image).0, Detailed::from(28));
        }
    }
}

/// Refusals before the slot is found, each with an image that would be out of step and has a word that cannot be read.
#[test]
fn nothing_is_told_before_the_slot_is_found() {
    let mut random = Xorshift::new(157);
    for awaited in 0..4 {
        let mut state = awaiting(1, awaited);
        assert_eq!(set_header_flips(&mut state, 2), 0);
        let mut image = image(&mut random, 1, (awaited as u32 + 2) % 4, DATA);
        flip_some(&mut random, &mut image, word_at(13), 4);
        assert_eq!(take(&state, &image), (told(31, 13, 0), true));
        let mut bad = state.clone();
        bad[AWAITED] = 4;
        let (mut spare, mut far) = (image.clone(), image.clone());
        flip(&mut spare, USEFUL_AT.end);
        [3, 11, 22].into_iter().for_each(|bit| flip(&mut far, bit));
        let elsewhere = write_image(18, 2, DATA, &[7; 90]).to_vec();
        let rows: [(&[u8], &[u8], u8); 7] = [
            (&state[1..], &image, 20),
            (&state, &image[1..], 20),
            (&state, &[], 20),
            (&bad, &image, 34),
            (&state, &spare, 21),
            (&state, &far, 49),
            (&state, &elsewhere, 27),
        ];
        for (state, image, number) in rows {
            assert_eq!(take(state, image), (Detailed::from(number), false));
        }
    }
}

/// States made by hand, with dirt in every room and other slots beside: a control packet leaves all of it, with any index, any useful
/// bytes and up to two flips in its type byte.
#[test]
fn a_control_packet_leaves_every_byte() {
    let mut random = Xorshift::new(159);
    for round in 0..rounds(400) {
        let mut state = started();
        for (place, bytes) in (0..).zip(state.chunks_exact_mut(SLOT)) {
            let slot = states::slot(&mut random, 10 + place);
            bytes.copy_from_slice(&slot.encode());
        }
        state[7 * SLOT + PROTECTION] = (round % 2) as u8;
        state[7 * SLOT + AWAITED] = (round / 2 % 4) as u8;
        let index = random.below(4) as u32;
        let mut image = write_image(17, index, CONTROL, &random.bytes()).to_vec();
        let (header, kind) = (random.below(4), random.below(3));
        flip_some(&mut random, &mut image, 0..23, header);
        flip_some(&mut random, &mut image, 23..31, kind);
        assert_eq!(take(&state, &image), (Detailed::from(29), false));
    }
}
