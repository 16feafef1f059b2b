//! FNV-1a of 32 bits: one number for many bytes, so that a row of text can say what they are.

pub fn digest(bytes: &[u8]) -> u32 {
    let step = |hash: u32, &byte: &u8| (hash ^ u32::from(byte)).wrapping_mul(0x0100_0193);
    bytes.iter().fold(0x811C_9DC5, step)
}
