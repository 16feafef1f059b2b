//! The type byte: worked numbers, and all 256 bytes.

use second::types::{read_type, write_type, TYPES};

#[test]
fn worked_readings() {
    assert_eq!(read_type(0x03), (0, 0x00, 2));
    assert_eq!(read_type(0x07), (0, 0xC7, 2));
    assert_eq!(read_type(0xFF), (0, 0x3F, 2));
    assert_eq!(read_type(0x55), (28, 0, 0));
}

#[test]
fn types_differ_in_five_bits() {
    let distance = |a: u8, b: u8| (a ^ b).count_ones();
    let [a, b, c, d] = TYPES;
    let pairs = [(a, b), (a, c), (a, d), (b, c), (b, d), (c, d)];
    let distances = pairs.map(|(one, other)| distance(one, other));
    assert_eq!(distances, [6, 5, 5, 5, 5, 6]);
}

#[test]
fn two_flips_are_put_right() {
    for byte in 0..=255u8 {
        for value in TYPES {
            let flips = (byte ^ value).count_ones();
            let read = read_type(byte) == (0, value, flips as u8);
            assert_eq!(read, flips <= 2, "{byte:02x} as {value:02x}");
        }
    }
}

#[test]
fn so_many_read() {
    let readable = (0..=255).filter(|&byte| read_type(byte).0 == 0).count();
    assert_eq!(readable, 148);
    let refused = (0..=255).filter(|&byte| read_type(byte) == (28, 0, 0));
    assert_eq!(refused.count(), 108);
}

#[test]
fn only_types_are_written() {
    for byte in 0..=255 {
        let answer = if TYPES.contains(&byte) {
            (0, byte)
        } else {
            (28, 0)
        };
        assert_eq!(write_type(byte), answer);
    }
}
