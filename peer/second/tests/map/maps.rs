//! What is good, byte by byte; lengths; and that every byte comes back.

use crate::listener::LAST;
use second::map::{heard, known, list, show, start, take, Map, MAP};
use second::samples::{difference, maps, rounds};
use second::xorshift::Xorshift;

const FIELD: [u8; 10] = [0xFE, 0x02, 0x00, 0x70, 0xF3, 0xFF, 0xFF, 0x13, 0xD0, 0x8C];

/// Whether every call takes a map for good, or every call refuses it with 34 and leaves all as it is.
fn is_good(map: &[u8]) -> bool {
    let (mut after, mut out) = (map.to_vec(), [0xA5; 256]);
    let (shown, heard, known) = (show(map, 1, 9), heard(map, 1, 9), known(map, 9));
    let (taken, listed) = (take(&mut after, &FIELD), list(map, 9, &mut out));
    let numbers = [taken, listed, shown.0, heard.0, known.0];
    let refused = numbers.map(|number| number == 34);
    if refused == [true; 5] {
        assert_eq!((&after[..], out), (map, [0xA5; 256]));
        assert_eq!(shown, (34, 0, 0, 0, 0, 0));
        assert_eq!((heard, known), ((34, 0, 0, 0), (34, 0, 0, 0)));
    } else {
        assert_eq!(refused, [false; 5]);
    }
    !refused[0]
}

fn with(at: usize, bytes: &[u8]) -> Vec<u8> {
    let mut map = vec![0; MAP];
    map[at..at + bytes.len()].copy_from_slice(bytes);
    map
}

#[test]
fn bounds_of_the_bytes() {
    for place in [0, 1, 0x81, 255] {
        for at in [142 * place, 142 * place + 71] {
            let announced = at % 142 != 0;
            for byte in 0..=255 {
                let mark = byte <= 1;
                assert_eq!(is_good(&with(at, &[byte])), byte <= 9);
                assert_eq!(is_good(&with(at, &[byte, 1])), (1..=8).contains(&byte));
                assert_eq!(is_good(&with(at, &[3, byte])), mark);
                assert_eq!(is_good(&with(at, &[3, 1, byte])), mark);
                let deleted = mark && (announced || byte == 0);
                assert_eq!(is_good(&with(at, &[0, 0, 1, byte])), deleted);
                assert_eq!(is_good(&with(at, &[1, 0, 0, byte])), byte == 0);
                assert_eq!(is_good(&with(at, &[2, 0, 0, 0, byte])), mark);
                // How far a list has come round may be anything, without a list too.
                assert!(is_good(&with(at, &[byte % 10, 0, 0, 0, 0, byte])));
                assert!(is_good(&with(at, &[3, 1, 0, 0, 0, byte])));
                assert_eq!(is_good(&with(at, &[0, 0, 0, 0, 0, 0, byte])), mark);
                assert_eq!(is_good(&with(at, &[8, 1, 1, 0, 1, 8, byte])), mark);
            }
        }
    }
    for byte in 0..=255 {
        assert!(is_good(&with(LAST, &[byte])));
        assert_eq!(is_good(&with(LAST + 1, &[byte])), byte <= 1);
        assert_eq!(is_good(&with(LAST + 2, &[byte])), byte <= 1);
        assert!(is_good(&with(LAST + 3, &[byte])));
    }
}

#[test]
fn the_fields_are_not_tested() {
    for at in [7, 78, 142 * 255 + 7, 142 * 255 + 78] {
        assert!(is_good(&with(at, &[0xA5; 64])));
    }
}

#[test]
fn maps_made_by_hand_are_what_they_are_called() {
    let mut random = Xorshift::new(321);
    for _ in 0..rounds(200) {
        let good = maps::good(&mut random);
        assert!(is_good(&good));
        let back = Map::decode(&good).map(|map| map.encode());
        assert_eq!(difference(&back.expect("a good map"), &good), None);
        assert!(!is_good(&maps::bad(&mut random)));
    }
}

#[test]
fn start_works_on_anything() {
    let mut map = vec![0xA5; MAP];
    assert!(!is_good(&map));
    assert_eq!(start(&mut map), 0);
    assert!(map.iter().all(|&byte| byte == 0));
    assert!(is_good(&map));
}

/// 20 comes before 34: the map is bad, too.
#[test]
fn wrong_lengths() {
    for length in [0, 1, 10, 256, MAP - 1, MAP, MAP + 1, 2 * MAP] {
        let mut map = vec![0xA5; length];
        for other in [0, 9, 10, 11, 255, 256, 257] {
            let number = |right| {
                if length == MAP && other == right {
                    34
                } else {
                    20
                }
            };
            let mut out = vec![0xA5; other];
            assert_eq!(take(&mut map, &out), number(10));
            assert_eq!(list(&map, 9, &mut out), number(256));
            assert_eq!(out, vec![0xA5; other]);
        }
        let number = if length == MAP { 34 } else { 20 };
        assert_eq!(show(&map, 1, 9), (number, 0, 0, 0, 0, 0));
        assert_eq!(heard(&map, 1, 9), (number, 0, 0, 0));
        assert_eq!(known(&map, 9), (number, 0, 0, 0));
        assert_eq!(map, vec![0xA5; length]);
        let number = if length == MAP { 0 } else { 20 };
        assert_eq!(start(&mut map), number);
    }
}

/// List says of every component what show says of it, on any good map; known counts those that are there, and what was heard is what is
/// shown where that is whole.
#[test]
fn all_readings_say_the_same() {
    let mut random = Xorshift::new(322);
    for _ in 0..rounds(20) {
        let map = maps::good(&mut random);
        for count in [0, 1, 2, 3, 130, map[LAST]] {
            let mut out = [0xA5; 256];
            assert_eq!(list(&map, count, &mut out), 0);
            for (id, said) in (0..=255).zip(out) {
                let shown = show(&map, id, count);
                let expected = match shown {
                    (46, _, _, _, _, 0) => 2,
                    (0, 0, 0, _, _, unknown) => 3 * unknown,
                    (0, _, _, _, _, 0) => 1,
                    other => panic!("{other:?}"),
                };
                assert_eq!(said, expected);
                let (number, at, length, whole) = heard(&map, id, count);
                assert_eq!((number, whole == 1), (0, said == 1));
                // A list in a map made by hand may begin with all ones and be called whole.
                assert!(whole == 0 || length == 0 || (at, length) == (shown.1, shown.2));
            }
            let there = out.iter().filter(|said| [1, 2].contains(*said)).count();
            let expected = (0, map[LAST + 3], map[LAST + 2], there);
            assert_eq!(known(&map, count), expected);
        }
    }
}

/// Where each reading looks: a whole list in force, and an announced one of three fields that is not.
#[test]
fn places_and_lengths() {
    let mut map = with(142 * 9, &[2, 1, 0, 0, 0, 0, 0]);
    map[142 * 9 + 71..142 * 9 + 78].copy_from_slice(&[3, 0, 0, 0, 1, 0, 1]);
    map[LAST..].copy_from_slice(&[100, 1, 1, 7]);
    let (here, there) = (142 * 9 + 7, 142 * 9 + 78);
    assert_eq!(show(&map, 9, 101), (0, here, 16, 1, 30, 0));
    assert_eq!(heard(&map, 9, 101), (0, here, 16, 1));
    assert_eq!(show(&map, 9, 130), (46, 0, 0, 1, 30, 0));
    assert_eq!(heard(&map, 9, 130), (0, there, 24, 0));
    assert_eq!(show(&map, 8, 130), (0, 0, 0, 0, 0, 1));
    assert_eq!(heard(&map, 8, 130), (0, 0, 0, 0));
    assert_eq!(known(&map, 130), (0, 7, 1, 1));
    // Nine are eight that have room.
    map[142 * 9 + 71] = 9;
    assert_eq!(heard(&map, 9, 130), (0, there, 64, 0));
    // All ones first is a list that was spoiled.
    let ones = (1_u64 << 62) - 1;
    map[there..there + 8].copy_from_slice(&ones.to_le_bytes());
    assert_eq!(heard(&map, 9, 130), (0, 0, 0, 0));
    assert_eq!(known(&map, 130), (0, 7, 1, 1));
}
