//! Fields alone: annex C's rows, bad pairs, and numbers that do not fit.

use crate::listener::{field, Listener, GONE};
use second::map::{pack, read, take, unpack, write};
use second::samples::{maps, rounds};
use second::xorshift::Xorshift;

/// Bytes, count, flag, id, six numbers, LINKS.
type Row = ([u8; 10], u8, u8, u8, [u32; 6], u8);

const ANNEX_C: [Row; 3] = [
    (
        [0xFE, 0x02, 0x00, 0x70, 0xF3, 0xFF, 0xFF, 0x13, 0xD0, 0x8C],
        254,
        0,
        0x01,
        [0, 622, 1023, 1023, 9, 205],
        1,
    ),
    (
        [0x76, 0x41, 0x16, 0xA8, 0xA0, 0xA8, 0xA6, 0xCA, 0xB1, 0x50],
        118,
        1,
        0x20,
        [11, 21, 325, 333, 229, 1291],
        0,
    ),
    (
        [0x75, 0x43, 0xFE, 0xFF, 0xFF, 0xFF, 0xFF, 0xFF, 0xFF, 0x7F],
        117,
        1,
        0x21,
        GONE,
        0,
    ),
];

#[test]
fn annex_c() {
    for (bytes, count, flag, id, numbers, links) in ANNEX_C {
        let (number, tdms) = pack(numbers);
        assert_eq!(number, 0);
        assert_eq!(unpack(tdms), (0, numbers));
        assert_eq!(read(&bytes), (0, count, flag, id, tdms, links));
        let mut out = [0xA5; 10];
        assert_eq!(write(count, flag, id, tdms, links, &mut out), 0);
        assert_eq!(out, bytes);
    }
}

/// The deletion in frame 117, the new structure in 118, and both from the change on.
#[test]
fn annex_c_heard() {
    let mut listener = Listener::new(115);
    listener.hears(0, 0x21, "aa", 0);
    assert_eq!(take(&mut listener.map, &ANNEX_C[2].0), 0);
    assert_eq!(take(&mut listener.map, &ANNEX_C[1].0), 0);
    listener.count = 119;
    assert_eq!(listener.announced(0x20), (1, 12));
    assert_eq!(listener.announced(0x21), (1, 12));
    assert_eq!(listener.now(0x20), (0, "".into()));
    assert_eq!(listener.now(0x21), (0, "a".into()));
    listener.idle_to(131);
    assert_eq!(listener.now(0x20), (0, "l".into()));
    assert_eq!(listener.now(0x21), (0, "".into()));
    assert_eq!(take(&mut listener.map, &ANNEX_C[0].0), 0);
}

#[test]
fn fields_come_back() {
    let mut random = Xorshift::new(301);
    for _ in 0..rounds(2_000) {
        let field = random.bytes::<10>();
        let (number, count, flag, id, tdms, links) = read(&field);
        assert_eq!(number, 0);
        let mut out = [0; 10];
        match write(count, flag, id, tdms, links, &mut out) {
            0 => assert_eq!(out, field),
            number => assert_eq!((number, out), (44, [0; 10])),
        }
        assert_eq!(write(count, flag, 0x81, tdms, links, &mut out), 0);
        let (number, numbers) = unpack(tdms);
        assert_eq!((number, pack(numbers)), (0, (0, tdms)));
    }
}

#[test]
fn wrong_lengths() {
    for length in (0..30).filter(|&length| length != 10) {
        assert_eq!(read(&vec![7; length]), (20, 0, 0, 0, 0, 0));
        let mut out = vec![7; length];
        // Everything else is wrong too.
        assert_eq!(write(1, 2, 3, u64::MAX, 2, &mut out), 20);
        assert_eq!(out, vec![7; length]);
    }
}

#[test]
fn too_large() {
    for place in 0..6 {
        let most = if place < 4 { 1023 } else { 2047 };
        for (number, refused) in [(most, 0), (most + 1, 33), (u32::MAX, 33)] {
            let mut numbers = [0; 6];
            numbers[place] = number;
            assert_eq!(pack(numbers).0, refused);
            assert!(refused == 0 || pack(numbers).1 == 0);
        }
    }
    for tdms in [1 << 62, 1 << 63, u64::MAX] {
        assert_eq!(unpack(tdms), (33, [0; 6]));
        assert_eq!(written(0, 0x81, tdms, 0), 33);
    }
    // 33 comes before 44.
    let bad = pack([2, 1, 0, 0, 0, 0]).1;
    assert_eq!(written(2, 1, bad, 0), 33);
    assert_eq!(written(0, 1, bad, 2), 33);
    assert_eq!(written(0, 1, bad, 0), 44);
}

fn written(flag: u8, id: u8, tdms: u64, links: u8) -> u8 {
    let mut out = [0xA5; 10];
    let number = write(9, flag, id, tdms, links, &mut out);
    assert!(number == 0 || out == [0xA5; 10]);
    number
}

/// Each pair alone, the others good. Both calls refuse the same.
#[test]
fn pairs() {
    for (place, ones) in [(0, 1023), (2, 1023), (4, 2047)] {
        let rows = [
            (5, 5, 0),
            (0, 0, 0),
            (ones, ones, 0),
            (0, ones - 1, 0),
            (ones - 1, ones - 1, 0),
            (4, 5, 0),
            (5, 4, 44),
            (ones, 0, 44),
            (ones, ones - 1, 44),
            (0, ones, 44),
            (ones - 1, ones, 44),
        ];
        for (first, last, number) in rows {
            let mut numbers = [1, 2, 3, 4, 5, 6];
            numbers[place] = first;
            numbers[place + 1] = last;
            for (id, number) in [(0x80, number), (0x82, number), (0x81, 0)] {
                for flag in 0..2 {
                    assert_eq!(Listener::new(9).hear(flag, id, numbers, 0), number);
                    assert_eq!(written(flag, id, pack(numbers).1, 0), number);
                }
            }
        }
    }
}

/// 1023 is all ones of a line, not of a clock period. A deletion's clock periods are a pair like any other.
#[test]
fn the_clock_periods_of_a_deletion() {
    let rows = [
        (2047, 2047, 0),
        (1023, 1023, 0),
        (0, 1023, 0),
        (3, 3, 0),
        (3, 2, 44),
        (3, 2047, 44),
    ];
    for (fcp, lcp, number) in rows {
        let mut listener = Listener::new(9);
        listener.hears(0, 1, "abab", 0);
        let numbers = [1023, 1023, 1023, 1023, fcp, lcp];
        assert_eq!(listener.hear(0, 1, numbers, 0), number);
        let left = if number == 0 { "" } else { "ab" };
        assert_eq!(listener.now(1), (0, left.into()));
    }
    // One line number less, and it is a structure.
    let mut listener = Listener::new(9);
    let numbers = [1023, 1023, 1022, 1022, 2047, 2047];
    assert_eq!(listener.hear(0, 1, numbers, 0), 0);
    assert_eq!(listener.now(1).0, 46);
}

#[test]
fn a_refused_field_changes_nothing() {
    let mut random = Xorshift::new(302);
    let mut refused = 0;
    for _ in 0..rounds(300) {
        let map = maps::good(&mut random);
        let mut after = map.clone();
        let last = random.below(256) as u8;
        let number = take(&mut after, &maps::field(&mut random, last));
        assert!([0, 44, 45].contains(&number));
        assert!(number == 0 || after == map);
        refused += usize::from(number != 0);
    }
    assert!(refused > 30, "{refused}");
}

/// A bad pair in the frame of a change, behind a gap, or in the same frame again is refused like any other.
#[test]
fn a_bad_pair_comes_first() {
    for count in [1, 2, 77] {
        let mut listener = Listener::new(1);
        listener.hears(1, 5, "a", 0);
        let before = listener.map.clone();
        let bad = field(count, 0, 5, [2, 1, 0, 0, 0, 0], 0);
        assert_eq!(take(&mut listener.map, &bad), 44);
        assert!(listener.map == before);
    }
}
