//! Headers: the library against both other implementations. Seeds are odd: a seed's lowest bit makes no other one.

use against::{read_header, read_header_within, write_header};
use second::golay::SETTINGS;
use second::xorshift::Xorshift;
use second::{fast, golay, samples};

/// No setting: above 3, and numbers that would be one once their high bits are cut off.
const NO_SETTINGS: [u32; 8] = [4, 5, 7, 255, 256, 65_537, 1 << 31, u32::MAX];

#[test]
fn all_written() {
    for address in 0..1024 {
        for index in 0..4 {
            let header = golay::write_header(address, index);
            assert_eq!(write_header(address, index), header);
        }
    }
}

/// Also numbers that would fit once their high bits are cut off.
#[test]
fn too_large_to_write() {
    let addresses = [17, 1023, 1024, 1025, 2048, 65_536 + 17, 1 << 31, u32::MAX];
    let indices = [0, 3, 4, 5, 256, 65_536 + 1, 1 << 31, u32::MAX];
    for address in addresses {
        for index in indices {
            let header = golay::write_header(address, index);
            assert_eq!(write_header(address, index), header, "{address} {index}");
        }
    }
}

#[test]
fn all_numbers_read_as_fast_reads_them() {
    for n in 0..1 << 23 {
        assert_eq!(read_header(n), fast::read_header(n), "{n:06x}");
    }
}

#[test]
fn all_numbers_at_every_setting_read_as_fast_reads_them() {
    for most in SETTINGS {
        for n in 0..1 << 23 {
            let expected = fast::read_header_within(n, most);
            assert_eq!(read_header_within(n, most), expected, "{n:06x} {most}");
        }
    }
}

#[test]
fn some_numbers_read_as_second_reads_them() {
    let mut random = Xorshift::new(11);
    for _ in 0..20_000 {
        let n = random.number() >> 9;
        assert_eq!(read_header(n), golay::read_header(n), "{n:06x}");
    }
}

#[test]
fn too_large_to_read() {
    let mut random = Xorshift::new(13);
    let edges = [1 << 23, (1 << 23) + 1, 1 << 24, 1 << 31, u32::MAX];
    let others = (0..10_000).map(|_| random.number() | 1 << 23);
    for n in edges.into_iter().chain(others) {
        assert_eq!(read_header(n), (33, 0, 0, 0), "{n:08x}");
    }
}

/// Both sides of each edge: noise alone has three flips mostly.
#[test]
fn settings_as_second_reads_them() {
    let mut random = Xorshift::new(15);
    for round in 0..8_000 {
        let n = samples::header(&mut random, round % 4);
        for most in SETTINGS.chain(NO_SETTINGS) {
            let expected = golay::read_header_within(n, most);
            assert_eq!(read_header_within(n, most), expected, "{n:06x} {most}");
        }
    }
}

#[test]
fn no_such_setting() {
    let mut random = Xorshift::new(17);
    for round in 0..10_000 {
        let n = random.number() >> random.below(12);
        let refused = if n >> 23 == 0 { 48 } else { 33 };
        let most = NO_SETTINGS[round % NO_SETTINGS.len()];
        assert_eq!(
            read_header_within(n, most),
            (refused, 0, 0, 0),
            "{n:08x} {most}"
        );
        let other = random.number().max(4);
        assert_eq!(
            read_header_within(n, other),
            (refused, 0, 0, 0),
            "{n:08x} {other}"
        );
    }
}

#[test]
fn too_large_to_read_at_any_setting() {
    let mut random = Xorshift::new(19);
    for n in [1 << 23, (1 << 23) + 1, 1 << 24, 1 << 31, u32::MAX] {
        for most in SETTINGS.chain(NO_SETTINGS).chain([random.number()]) {
            assert_eq!(read_header_within(n, most), (33, 0, 0, 0), "{n:08x} {most}");
        }
    }
}
