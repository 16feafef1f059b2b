//! Received images: the library against both other implementations.

use against::{received, received_raw, received_whole, MARK};
use second::fast;
use second::image::{self, Received, IMAGE, TYPE_AT, USEFUL};
use second::samples::{self, flip, sound, word_at, WORDS};
use second::types::{DATA, TYPES};
use second::xorshift::Xorshift;

fn agree(protected: bool, bytes: &[u8]) -> Received {
    let expected = image::received(protected, bytes);
    let found = received_whole(protected, bytes);
    assert_eq!(found, expected, "protected {protected}, {bytes:02x?}");
    found
}

#[test]
fn sound_images() {
    let mut random = Xorshift::new(31);
    for _ in 0..200 {
        for kind in TYPES {
            for protected in [false, true] {
                let bytes = sound(&mut random, protected, kind);
                agree(protected, &bytes);
                agree(!protected, &bytes);
            }
        }
    }
}

#[test]
fn every_type_byte() {
    let mut random = Xorshift::new(32);
    for byte in 0..=255 {
        let bytes = sound(&mut random, true, byte);
        agree(true, &bytes);
        agree(false, &bytes);
    }
}

/// Each bit of each part: a bit taken from the wrong place shows here.
#[test]
fn every_single_bit() {
    for bit in 0..8 * IMAGE {
        let mut bytes = [0; IMAGE];
        flip(&mut bytes, bit);
        agree(false, &bytes);
        agree(true, &bytes);
        let mut bytes = image::write_image(0, 0, DATA, &image::protect(&[0; 45]));
        flip(&mut bytes, bit);
        agree(false, &bytes);
        agree(true, &bytes);
    }
}

#[test]
fn every_place_of_a_bad_word() {
    let mut random = Xorshift::new(33);
    for place in 0..WORDS {
        let mut bytes = sound(&mut random, true, DATA);
        for last in place..WORDS {
            samples::flip_some(&mut random, &mut bytes, word_at(last), 4);
            let answer = agree(true, &bytes);
            assert_eq!((answer.number, usize::from(answer.place)), (31, place));
        }
    }
}

#[test]
fn damage_within_bounds_does_not_show() {
    let mut random = Xorshift::new(34);
    for _ in 0..1_000 {
        let bytes = sound(&mut random, true, DATA);
        let clean = agree(true, &bytes);
        let mut damaged = bytes;
        samples::damage(&mut random, &mut damaged, 3, 2, 3);
        assert_eq!(received_whole(true, &damaged), clean);
    }
}

#[test]
fn images_of_every_sort_as_second_reads_them() {
    let mut random = Xorshift::new(35);
    for _ in 0..10_000 {
        let (protected, bytes) = samples::any(&mut random);
        agree(protected, &bytes);
    }
}

#[test]
fn images_of_every_sort_as_fast_reads_them() {
    let mut random = Xorshift::new(36);
    let mut ours = [MARK; USEFUL];
    let mut theirs = [!MARK; USEFUL];
    for _ in 0..60_000 {
        let (protected, bytes) = samples::any(&mut random);
        let found = received(protected, &bytes, &mut ours);
        let expected = fast::received(protected, &bytes, &mut theirs);
        assert_eq!((found, ours), (expected, theirs), "{bytes:02x?}");
    }
}

#[test]
fn wrong_lengths() {
    let long = sound(&mut Xorshift::new(37), true, DATA).repeat(8);
    for length in (0..=long.len()).filter(|&length| length != IMAGE) {
        assert_eq!(agree(false, &long[..length]).number, 20);
        assert_eq!(agree(true, &long[..length]).number, 20);
    }
}

/// Bits that do not belong to the type byte must not sway it, nor the other way round.
#[test]
fn a_header_of_ones_beside_a_type_of_zeros() {
    for kind in [0x00, 0xFF, 0x01, 0x80, 0x81] {
        let mut bytes = image::write_image(1023, 3, kind, &[0xFF; USEFUL]);
        agree(false, &bytes);
        flip(&mut bytes, TYPE_AT.start - 1);
        agree(false, &bytes);
    }
}

/// The buffer lies between marks, which have to stand afterwards; the image is only lent for reading.
#[test]
fn nothing_else_is_written() {
    let mut random = Xorshift::new(38);
    for _ in 0..5_000 {
        let (protected, bytes) = samples::any(&mut random);
        let before = bytes.clone();
        let mut room = [MARK; 3 * USEFUL];
        let middle: &mut [u8; USEFUL] = (&mut room[USEFUL..2 * USEFUL]).try_into().unwrap();
        received(protected, &bytes, middle);
        assert_eq!(bytes, before);
        assert_eq!(room[..USEFUL], [MARK; USEFUL]);
        assert_eq!(room[2 * USEFUL..], [MARK; USEFUL]);
    }
}

/// (number, place, index) of a call whose room holds marks. A refusal for how it was called leaves all of them.
fn called(protection: u8, image: &[u8], room: &mut [u8]) -> (u8, u8, u8) {
    let (mut place, mut index) = (MARK, MARK);
    let number = received_raw(protection, image, &mut place, &mut index, room);
    (number, place, index)
}

/// 23 before anything is known of the image, sound or not.
#[test]
fn no_such_protection() {
    let image = sound(&mut Xorshift::new(39), true, DATA);
    for protection in 2..=255 {
        for length in [0, 1, IMAGE - 1, IMAGE] {
            let mut room = [MARK; USEFUL];
            let answer = called(protection, &image[..length], &mut room);
            assert_eq!(answer, (23, MARK, MARK), "{protection} {length}");
            assert_eq!(room, [MARK; USEFUL]);
        }
    }
}

/// 20 for the room, before 23 for the protection.
#[test]
fn no_such_room() {
    let image = sound(&mut Xorshift::new(40), true, DATA);
    let lengths = (0..=3 * USEFUL).filter(|&length| length != USEFUL);
    for length in lengths {
        for protection in [0, 1, 2, 255] {
            let mut room = [MARK; 3 * USEFUL];
            let answer = called(protection, &image, &mut room[..length]);
            assert_eq!(answer, (20, MARK, MARK), "{protection} {length}");
            assert_eq!(room, [MARK; 3 * USEFUL]);
        }
    }
}
