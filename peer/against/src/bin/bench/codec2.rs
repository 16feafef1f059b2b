//! Debian's libcodec2, where it is installed: its `golay23_decode` beside our readers of headers and words, on the same numbers. It is looked for when
//! the program runs, so that nothing depends on it.
//!
//! Its words stand the other way round: its generator is ours reversed, and so is a codeword. It hands back the corrected word.

use crate::inputs;
use crate::rounds::Row;
use std::ffi::{c_char, c_int, c_void, CString};

const NAMES: [&str; 4] = ["libcodec2.so.1.2", "libcodec2.so.1.0", "libcodec2.so.0.9", "libcodec2.so"];
/// Find every name when the library is loaded (RTLD_NOW).
const NOW: c_int = 2;
const WIDTH: u32 = 23;
/// The first bits of a word.
const INFORMATION: u32 = 12;

extern "C" {
    fn dlopen(name: *const c_char, flags: c_int) -> *mut c_void;
    fn dlsym(library: *mut c_void, name: *const c_char) -> *mut c_void;
}

pub fn measure() {
    let Some(decode) = load() else {
        println!("libcodec2 is not installed: its words are not measured");
        return;
    };
    for flips in [0, 3] {
        beside(&format!("header, {flips} flips, beside libcodec2"), &inputs::headers(flips), header, &decode);
        beside(&format!("word, {flips} flips, beside libcodec2"), &inputs::words(flips), word, &decode);
    }
}

/// Both sides give the ones of the information: as many, whichever way round it stands. Of a word theirs is given the first 23 bits.
fn beside(name: &str, words: &[u32], ours: fn(u32) -> u32, decode: &impl Fn(u32) -> u32) {
    let reversed: Vec<u32> = words.iter().map(|&word| reverse(word % (1 << WIDTH))).collect();
    let theirs = |other: u32| (decode(other) >> (WIDTH - INFORMATION)).count_ones();
    for (&word, &other) in words.iter().zip(&reversed) {
        assert_eq!(ours(word), theirs(other), "both correct {word}");
    }
    let mine = || words.iter().map(|&word| u64::from(ours(word))).sum();
    let other = || reversed.iter().map(|&word| u64::from(theirs(word))).sum();
    Row::measure(words.len(), mine, other).print(name);
}

fn header(n: u32) -> u32 {
    let (_, address, index, _) = against::read_header(n);
    address.count_ones() + index.count_ones()
}

fn word(n: u32) -> u32 {
    let (_, information, _) = against::read_word(n);
    information.count_ones()
}

fn reverse(word: u32) -> u32 {
    word.reverse_bits() >> (u32::BITS - WIDTH)
}

/// The library's decoder, made ready.
fn load() -> Option<impl Fn(u32) -> u32> {
    let library = NAMES.into_iter().find_map(|name| {
        let name = CString::new(name).expect("no zero byte");
        // SAFETY: the name ends in a zero byte; loading this library runs nothing of ours.
        let library = unsafe { dlopen(name.as_ptr(), NOW) };
        (!library.is_null()).then_some(library)
    })?;
    let init = find(library, "golay23_init")?;
    let decode = find(library, "golay23_decode")?;
    // SAFETY: these are the types that the library's header golay23.h declares.
    let (init, decode) = unsafe {
        (
            std::mem::transmute::<*mut c_void, extern "C" fn()>(init),
            std::mem::transmute::<*mut c_void, extern "C" fn(c_int) -> c_int>(decode),
        )
    };
    init();
    Some(move |word: u32| decode(word as c_int) as u32)
}

fn find(library: *mut c_void, name: &str) -> Option<*mut c_void> {
    let name = CString::new(name).expect("no zero byte");
    // SAFETY: the library is loaded, and the name ends in a zero byte.
    let symbol = unsafe { dlsym(library, name.as_ptr()) };
    (!symbol.is_null()).then_some(symbol)
}
