//! Type bytes: the library against the second implementation, all 256 of them.

use against::{read_type, write_type};
use second::types;

#[test]
fn all_read() {
    for byte in 0..=255 {
        assert_eq!(read_type(byte), types::read_type(byte), "{byte:02x}");
    }
}

#[test]
fn all_written() {
    for byte in 0..=255 {
        assert_eq!(write_type(byte), types::write_type(byte), "{byte:02x}");
    }
}
