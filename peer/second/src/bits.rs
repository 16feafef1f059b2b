//! Rows of bits in the order in which they are sent. Numbers and bytes are sent lowest bit first.

/// The lowest `count` bits of a number, in sending order.
pub fn of_wide(number: u64, count: usize) -> Vec<bool> {
    (0..count).map(|k| number >> k & 1 == 1).collect()
}

/// The number whose bits were sent in this order.
pub fn to_wide(row: &[bool]) -> u64 {
    row.iter()
        .rev()
        .fold(0, |number, &bit| number * 2 + u64::from(bit))
}

/// The same two for the numbers of 32 bits that all but the map's fields are.
pub fn of_number(number: u32, count: usize) -> Vec<bool> {
    of_wide(u64::from(number), count)
}

pub fn to_number(row: &[bool]) -> u32 {
    to_wide(row).try_into().expect("a number of 32 bits")
}

/// All bits of some bytes, in sending order.
pub fn of_bytes(bytes: &[u8]) -> Vec<bool> {
    bytes
        .iter()
        .flat_map(|&byte| of_number(u32::from(byte), 8))
        .collect()
}

/// The bytes whose bits were sent in this order. The row must hold whole bytes.
pub fn to_bytes(row: &[bool]) -> Vec<u8> {
    assert_eq!(row.len() % 8, 0, "a row of whole bytes");
    row.chunks(8).map(|eight| to_number(eight) as u8).collect()
}

/// How many bits are set.
pub fn ones(row: &[bool]) -> usize {
    row.iter().filter(|&&bit| bit).count()
}

/// In how many places two rows of the same length differ.
pub fn flips(one: &[bool], other: &[bool]) -> usize {
    assert_eq!(one.len(), other.len(), "rows of one length");
    one.iter().zip(other).filter(|(a, b)| a != b).count()
}

#[cfg(test)]
mod tests {
    use super::*;

    #[test]
    fn lowest_bit_is_sent_first() {
        assert_eq!(of_number(0b0001, 4), [true, false, false, false]);
        assert_eq!(to_number(&[false, false, true]), 4);
    }

    #[test]
    fn wide_numbers_come_back() {
        for number in [0, 1, 0x8000_0001_0000_0002, u64::MAX] {
            assert_eq!(to_wide(&of_wide(number, 64)), number);
        }
        assert_eq!(of_wide(1 << 62, 62), [false; 62]);
    }

    #[test]
    fn bytes_come_back() {
        let bytes: Vec<u8> = (0..=255).collect();
        assert_eq!(to_bytes(&of_bytes(&bytes)), bytes);
        assert!(of_bytes(&[0, 1])[8]);
    }

    #[test]
    fn flips_count_the_places_that_differ() {
        assert_eq!(flips(&of_number(0x55, 8), &of_number(0x3F, 8)), 4);
        assert_eq!(ones(&of_number(0x3F, 8)), 6);
    }
}
