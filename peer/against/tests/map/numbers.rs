//! Fields and TDMS numbers alone: read, write, pack and unpack.

use crate::both::{between_marks, inside};
use against::map as ours;
use second::map::{self as theirs, FIELD};
use second::samples::{maps, rounds};
use second::xorshift::Xorshift;

/// Write on both sides, into rooms that hold marks.
fn same_written(count: u8, flag: u8, id: u8, tdms: u64, links: u8, room: usize) -> u8 {
    let mut out = between_marks(&vec![0x5A; room]);
    let mut expected = vec![0x5A; room];
    let number = ours::write(count, flag, id, tdms, links, inside(&mut out));
    let other = theirs::write(count, flag, id, tdms, links, &mut expected);
    assert_eq!(number, other, "{count} {flag} {id} {tdms:016x} {links}");
    assert_eq!(out, between_marks(&expected));
    number
}

#[test]
fn fields_read_and_written() {
    let mut random = Xorshift::new(409);
    let mut written = [0; 256];
    for _ in 0..rounds(20_000) {
        let field = match random.below(2) {
            0 => random.bytes::<FIELD>().to_vec(),
            _ => maps::field(&mut random, 100),
        };
        let read = ours::read(&field);
        assert_eq!(read, theirs::read(&field), "{field:02x?}");
        let (_, count, flag, id, tdms, links) = read;
        same_written(count, flag, id, tdms, links, FIELD);
        let marks = [0, 1, 1, 2, 3, 128, 255];
        let (flag, links) = (marks[random.below(7)], marks[random.below(7)]);
        let tdms = any_tdms(&mut random);
        let number = same_written(count, flag, maps::id(&mut random), tdms, links, FIELD);
        written[usize::from(number)] += 1;
    }
    for number in [0, 33, 44] {
        assert!(written[number] > 100, "{number}: {:?}", &written[..50]);
    }
}

/// With good pairs, with any, or with bits above its own.
fn any_tdms(random: &mut Xorshift) -> u64 {
    match random.below(6) {
        0 => random.next(),
        1 => maps::tdms(random) | 1 << (62 + random.below(2)),
        2 => [0, 1, 1 << 61, (1 << 62) - 1, 1 << 62, u64::MAX][random.below(6)],
        3 => maps::any_pairs(random),
        _ => maps::tdms(random),
    }
}

#[test]
fn numbers_packed_and_unpacked() {
    let mut random = Xorshift::new(410);
    let edges = [
        0,
        1,
        512,
        1022,
        1023,
        1024,
        2046,
        2047,
        2048,
        65_536,
        1 << 31,
        u32::MAX,
    ];
    for _ in 0..rounds(20_000) {
        let tdms = any_tdms(&mut random);
        assert_eq!(ours::unpack(tdms), theirs::unpack(tdms), "{tdms:016x}");
        let (_, mut numbers) = theirs::unpack(tdms);
        assert_eq!(ours::pack(numbers), theirs::pack(numbers), "{numbers:?}");
        numbers[random.below(6)] = edges[random.below(edges.len())];
        assert_eq!(ours::pack(numbers), theirs::pack(numbers), "{numbers:?}");
        let numbers = [(); 6].map(|()| edges[random.below(edges.len())]);
        assert_eq!(ours::pack(numbers), theirs::pack(numbers), "{numbers:?}");
    }
    for bit in 0..64 {
        assert_eq!(ours::unpack(1 << bit), theirs::unpack(1 << bit), "{bit}");
    }
}

#[test]
fn wrong_lengths() {
    for length in 0..32 {
        let field = vec![0xFF; length];
        assert_eq!(ours::read(&field), theirs::read(&field), "{length}");
        for (flag, tdms) in [(0, 7 << 40), (2, u64::MAX), (1, 1)] {
            same_written(9, flag, 3, tdms, 0, length);
        }
    }
}
