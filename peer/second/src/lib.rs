//! A second implementation of the whole adapter, written from the text of ETS 300 352 and of the paper alone.
//!
//! It goes another way than the library it is held against: words are made by long division of polynomials written
//! out as coefficients and read by looking through all 4,096 words, an image is a row of 752 bits, and the state is
//! taken out of its bytes, changed as a row of values and put back, in every call; so is the multiplex's map. It is slow
//! and short, so that it can be checked by eye against the standard and the paper. `plain` reads headers a second way, by
//! trying error patterns.
//!
//! Four modules are not part of that reading: `fast` is a rival for measuring, `samples` and `xorshift` make inputs
//! for tests, and `fnv` makes one number of many bytes.

#![forbid(unsafe_code)]

pub mod bits;
pub mod fast;
pub mod fnv;
pub mod golay;
pub mod group;
pub mod image;
pub mod map;
pub mod numbers;
pub mod plain;
pub mod records;
pub mod samples;
pub mod slot;
pub mod table;
pub mod types;
pub mod xorshift;

mod division;
