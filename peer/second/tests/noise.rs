//! Why there is a setting (document 02, Ask 7): "On an empty channel, noise always reads as some header, and now and then as
//! an address of ours." How often it does, counted over every number of 23 bits.

use second::fast::{read_header, read_header_within};

const NUMBERS: u32 = 1 << 23;
/// Header words, and those of one address: one for each index.
const WORDS: usize = 4096;
const WORDS_OF_AN_ADDRESS: usize = 4;
/// At each setting, how many numbers lie so near to a word: 1, 23 more, 253 more, 1,771 more.
const NEAR: [usize; 4] = [1, 24, 277, 2048];

/// At setting 3 all noise is read; at 0 one number in 2,048.
#[test]
fn so_many_numbers_are_read() {
    for (most, near) in (0..).zip(NEAR) {
        let read = (0..NUMBERS).filter(|&n| read_header_within(n, most).0 == 0);
        assert_eq!(read.count(), WORDS * near, "{most}");
    }
    assert_eq!(WORDS * NEAR[3], NUMBERS as usize);
}

/// Of an address that is followed, 8,192 numbers of 2^23 at setting 3, and 4 at setting 0.
#[test]
fn so_many_numbers_are_read_as_one_address() {
    for (most, near) in (0..).zip(NEAR) {
        let mut counts = [0; 1024];
        for n in 0..NUMBERS {
            let (number, address, _, _) = read_header_within(n, most);
            counts[usize::from(address)] += usize::from(number == 0);
        }
        let expected = WORDS_OF_AN_ADDRESS * near;
        assert!(counts.iter().all(|&count| count == expected), "{most}");
    }
}

/// What is read at a setting is read as it is without one.
#[test]
fn a_setting_only_refuses() {
    for n in 0..NUMBERS {
        let whole = read_header(n);
        for most in 0..=3 {
            let expected = if u32::from(whole.3) <= most {
                whole
            } else {
                (49, 0, 0, 0)
            };
            assert_eq!(read_header_within(n, most), expected, "{n:06x} {most}");
        }
    }
}
