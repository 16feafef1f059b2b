//! What images are received as: the order of refusals, and that damage within bounds does not show.

use second::image::{protect, received, write_image, Received, USEFUL_AT};
use second::samples::{damage, flip, sound, word_at, WORDS};
use second::types::{DATA, TYPES};
use second::xorshift::Xorshift;

fn refused(number: u8, place: u8) -> Received {
    Received {
        number,
        place,
        index: 0,
        bytes: [0; 90],
    }
}

#[test]
fn plain_bytes_are_handed_on() {
    let useful = std::array::from_fn(|i| i as u8 ^ 0x5A);
    for index in 0..4 {
        let answer = received(false, &write_image(17, index, DATA, &useful));
        assert_eq!((answer.number, answer.place), (0, 0));
        assert_eq!(u32::from(answer.index), index);
        assert_eq!(answer.bytes, useful);
    }
}

#[test]
fn protected_bytes_have_zeros_behind_them() {
    let data = [0xFF; 45];
    let answer = received(true, &write_image(1023, 3, DATA, &protect(&data)));
    assert_eq!((answer.number, answer.place, answer.index), (0, 0, 3));
    assert_eq!(answer.bytes[..45], data);
    assert_eq!(answer.bytes[45..], [0; 45]);
}

#[test]
fn types_are_answered_by_their_numbers() {
    let numbers = TYPES.map(|kind| received(false, &write_image(1, 0, kind, &[7; 90])).number);
    assert_eq!(numbers, [0, 29, 47, 30]);
    let unreadable = write_image(1, 2, 0x55, &[7; 90]);
    assert_eq!(received(false, &unreadable), refused(28, 0));
    assert_eq!(received(true, &unreadable), refused(28, 0));
}

#[test]
fn another_length_is_refused() {
    let twice = write_image(1, 2, DATA, &[7; 90]).repeat(2);
    for length in (0..=188).filter(|&length| length != 94) {
        assert_eq!(received(false, &twice[..length]), refused(20, 0));
        assert_eq!(received(true, &twice[..length]), refused(20, 0));
    }
}

#[test]
fn damage_within_bounds_does_not_show() {
    let mut random = Xorshift::new(1);
    for _ in 0..50 {
        let image = sound(&mut random, true, DATA);
        let mut damaged = image;
        damage(&mut random, &mut damaged, 3, 2, 3);
        assert_eq!(received(true, &damaged), received(true, &image));
    }
}

#[test]
fn the_first_bad_word_is_named() {
    let mut random = Xorshift::new(2);
    for place in 0..WORDS {
        let mut image = sound(&mut random, true, DATA);
        for word in place..WORDS {
            for bit in [0, 9, 18, 23] {
                flip(&mut image, word_at(word).start + bit);
            }
        }
        assert_eq!(received(true, &image), refused(31, place as u8));
        // Plain data has no words.
        assert_eq!(received(false, &image).number, 0);
    }
}

#[test]
fn the_type_comes_before_the_words() {
    let mut useful = protect(&[0; 45]);
    // Four flips in the first word.
    useful[0] = 0x0F;
    let numbers = [0x00, 0x3F, 0xC7, 0xF8, 0x55]
        .map(|kind| received(true, &write_image(1, 1, kind, &useful)).number);
    assert_eq!(numbers, [31, 29, 47, 30, 28]);
}

#[test]
fn address_and_spare_bit_play_no_part() {
    let image = write_image(0, 2, DATA, &[0xA7; 90]);
    let mut other = write_image(900, 2, DATA, &[0xA7; 90]);
    flip(&mut other, USEFUL_AT.end);
    assert_eq!(received(false, &image), received(false, &other));
}
