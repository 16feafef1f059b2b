//! The fast readers against the slow ones.

use second::fast;
use second::golay::{read_header, read_header_within, read_word, word23, word24};
use second::image::{received, Received};
use second::samples;
use second::xorshift::Xorshift;

const NUMBERS: usize = 20_000;
const IMAGES: usize = 3_000;

/// From a buffer that is not clean.
fn fast_received(protected: bool, image: &[u8]) -> Received {
    let mut bytes = [0xA5; 90];
    let (number, place, index) = fast::received(protected, image, &mut bytes);
    Received {
        number,
        place,
        index,
        bytes,
    }
}

#[test]
fn all_words_with_no_flip_and_one() {
    for information in 0..4096 {
        let (header, word) = (word23(information), word24(information));
        assert_eq!(fast::read_header(header), read_header(header));
        assert_eq!(fast::read_word(word), read_word(word));
        let n = word ^ 1 << (information % 24);
        assert_eq!(fast::read_word(n), read_word(n));
    }
}

#[test]
fn numbers_of_every_size() {
    let mut random = Xorshift::new(3);
    for _ in 0..NUMBERS {
        let n = random.number() >> random.below(12);
        assert_eq!(fast::read_header(n), read_header(n), "{n:08x}");
        assert_eq!(fast::read_word(n), read_word(n), "{n:08x}");
    }
}

/// Noise alone has three flips mostly; and settings beyond 3, which are refused only where the number is not.
#[test]
fn headers_at_every_setting() {
    let mut random = Xorshift::new(5);
    for round in 0..NUMBERS {
        let any = random.number() >> random.below(12);
        for n in [samples::header(&mut random, round % 4), any] {
            let most = [0, 1, 2, 3, 4, 255, 256, u32::MAX][random.below(8)];
            let expected = read_header_within(n, most);
            assert_eq!(
                fast::read_header_within(n, most),
                expected,
                "{n:08x} {most}"
            );
        }
    }
}

#[test]
fn so_many_numbers_are_words() {
    let readable = (0..1 << 24).filter(|&n| fast::read_word(n).0 == 0).count();
    assert_eq!(readable, 4096 * (1 + 24 + 276 + 2024));
    assert_eq!(readable, 9_523_200);
}

#[test]
fn images_of_every_sort() {
    let mut random = Xorshift::new(4);
    for _ in 0..IMAGES {
        let (protected, image) = samples::any(&mut random);
        let expected = received(protected, &image);
        assert_eq!(fast_received(protected, &image), expected, "{image:02x?}");
    }
}

/// The images above are only worth something if they reach every answer.
#[test]
fn samples_reach_every_answer() {
    let mut random = Xorshift::new(4);
    let mut numbers = [0; 256];
    let mut places = [0; samples::WORDS];
    for _ in 0..IMAGES {
        let (protected, image) = samples::any(&mut random);
        let answer = fast_received(protected, &image);
        numbers[usize::from(answer.number)] += 1;
        if answer.number == 31 {
            places[usize::from(answer.place)] += 1;
        }
    }
    assert!(
        [0, 20, 28, 29, 47, 30, 31].iter().all(|&n| numbers[n] > 50),
        "{numbers:?}"
    );
    assert!(places.iter().all(|&count| count > 0), "{places:?}");
}
