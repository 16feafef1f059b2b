//! The packet call with damage counted out: so many flips in the header, in the type byte and in a word. What a number carries
//! is compared with every packet; tests/details.rs has what it has to be.

use against::both::Both;
use second::golay::SETTINGS;
use second::image::{protect, write_image, HEADER_AT, IMAGE, TYPE_AT, USEFUL_AT};
use second::samples::calls::Call;
use second::samples::states::started;
use second::samples::{flip, flip_some, rounds, word_at, WORDS};
use second::table::{follow, set_header_flips};
use second::types::{DATA, TYPES};
use second::xorshift::Xorshift;

/// From no flip to six.
const CHOICES: usize = 7;

/// Sixteen addresses, plain and protected by turns. A header with four flips now and then reads as another of them.
fn following() -> Vec<u8> {
    let mut state = started();
    for k in 0..16 {
        assert_eq!(follow(&mut state, 1 + 64 * k, k % 2, 3), 0);
    }
    state
}

fn image(random: &mut Xorshift, k: u32, index: u32, kind: u8) -> [u8; IMAGE] {
    let useful = if k % 2 == 1 {
        protect(&random.bytes())
    } else {
        random.bytes()
    };
    write_image(1 + 64 * k, index, kind, &useful)
}

/// Every choice of none to six flips in the header, in the type byte and in a word.
#[test]
fn flips_from_none_to_six() {
    let mut random = Xorshift::new(121);
    let mut both = Both::new(&following(), Call::make);
    let choices = CHOICES * CHOICES * CHOICES;
    for n in 0..rounds(6 * choices) {
        let k = random.below(16);
        // Mostly groups go on, where the damage lets them.
        let awaited = both.state()[second::slot::SLOT * k + 733].into();
        let index = [random.below(4) as u32, awaited, awaited][random.below(3)];
        let mut bytes = image(&mut random, k as u32, index, DATA);
        let (header, kind, word) = (n, n / CHOICES, n / CHOICES / CHOICES);
        let place = word_at(random.below(WORDS));
        flip_some(&mut random, &mut bytes, HEADER_AT, header % CHOICES);
        flip_some(&mut random, &mut bytes, TYPE_AT, kind % CHOICES);
        flip_some(&mut random, &mut bytes, place, word % CHOICES);
        both.make(&Call::Packet(bytes.to_vec()));
    }
}

/// None to six flips in the header at each setting, among packets that are hurt elsewhere, too.
#[test]
fn header_flips_at_every_setting() {
    let mut random = Xorshift::new(125);
    for most in SETTINGS {
        let mut both = Both::new(&following(), Call::make);
        assert_eq!(both.make(&Call::SetHeaderFlips(most)).number, 0);
        for n in 0..rounds(60 * CHOICES) {
            let (k, flips) = (random.below(16), n % CHOICES);
            let awaited = both.state()[second::slot::SLOT * k + 733].into();
            let index = [random.below(4) as u32, awaited, awaited][random.below(3)];
            let mut bytes = image(&mut random, k as u32, index, DATA);
            flip_some(&mut random, &mut bytes, HEADER_AT, flips);
            let (kind, word) = (random.below(4), random.below(6));
            let place = word_at(random.below(WORDS));
            flip_some(&mut random, &mut bytes, TYPE_AT, kind);
            flip_some(&mut random, &mut bytes, place, word);
            let number = both.make(&Call::Packet(bytes.to_vec())).number;
            let beyond = flips > most as usize;
            assert!(
                flips > 3 || (number == 49) == beyond,
                "{flips} at {most}: {number}"
            );
        }
    }
}

/// Each pattern of up to three flips at each setting, at an address that is followed and at one that is not.
#[test]
fn every_pattern_at_every_setting() {
    let all = 0u32..1 << 23;
    let patterns: Vec<u32> = all.filter(|pattern| pattern.count_ones() <= 3).collect();
    for most in SETTINGS {
        let mut state = following();
        assert_eq!(set_header_flips(&mut state, most), 0);
        for (address, answer) in [(1, 1), (2, 27)] {
            let clean = write_image(address, 0, DATA, &[7; 90]);
            for pattern in &patterns {
                let mut bytes = clean.to_vec();
                for (byte, flips) in bytes.iter_mut().zip(pattern.to_le_bytes()) {
                    *byte ^= flips;
                }
                let mut both = Both::new(&state, Call::make_fast);
                let number = both.make(&Call::Packet(bytes)).number;
                let read = pattern.count_ones() <= most;
                let expected = if read { answer } else { 49 };
                assert_eq!(number, expected, "{pattern:06x} {most} {address}");
            }
        }
    }
}

/// Flips in all words at once: up to four, which is one too many.
#[test]
fn flips_in_every_word() {
    let mut random = Xorshift::new(122);
    let mut both = Both::new(&following(), Call::make);
    for round in 0..rounds(900) as u32 {
        let (k, index) = (round / 4 % 16, round % 4);
        let mut bytes = image(&mut random, k, index, DATA);
        let most = random.below(5);
        for place in 0..WORDS {
            let count = random.below(most + 1);
            flip_some(&mut random, &mut bytes, word_at(place), count);
        }
        both.make(&Call::Packet(bytes.to_vec()));
    }
}

#[test]
fn every_type_byte() {
    let mut random = Xorshift::new(123);
    for byte in 0..=255 {
        for k in 0..2 {
            let mut both = Both::new(&following(), Call::make);
            let bytes = image(&mut random, k, 0, byte);
            both.make(&Call::Packet(bytes.to_vec()));
        }
    }
}

/// Each bit of a sound image, and the spare bit with each type.
#[test]
fn every_single_bit() {
    let mut random = Xorshift::new(124);
    for k in 0..2 {
        let bytes = image(&mut random, k, 0, DATA);
        for bit in 0..8 * IMAGE {
            let mut both = Both::new(&following(), Call::make);
            let mut bytes = bytes;
            flip(&mut bytes, bit);
            let number = both.make(&Call::Packet(bytes.to_vec())).number;
            assert_eq!(number, if bit == USEFUL_AT.end { 21 } else { 1 });
        }
        for kind in TYPES {
            let mut both = Both::new(&following(), Call::make);
            let mut bytes = image(&mut random, k, 0, kind);
            flip(&mut bytes, USEFUL_AT.end);
            assert_eq!(both.make(&Call::Packet(bytes.to_vec())).number, 21);
        }
    }
}

/// All headers. Addresses 0 and 1,023 are among them, and free slots have address 0 in their bytes.
#[test]
fn every_address_and_index() {
    let mut few = started();
    assert_eq!(follow(&mut few, 512, 0, 3), 0);
    for state in [few, following()] {
        for address in 0..1024 {
            for index in 0..4 {
                let bytes = write_image(address, index, DATA, &[7; 90]);
                let mut both = Both::new(&state, Call::make_fast);
                let number = both.make(&Call::Packet(bytes.to_vec())).number;
                let outside = address == 0 || address == 1023;
                assert!(!outside || number == 27, "{address} {index}");
            }
        }
    }
}
