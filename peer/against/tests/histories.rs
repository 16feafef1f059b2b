//! Long histories of all calls: the library against both other implementations, the whole state compared after every
//! call, refused ones too.

use against::both::{Both, Other};
use second::samples::calls::{self, Call};
use second::samples::rounds;
use second::table::STATE;
use second::xorshift::Xorshift;

/// How often each number came.
type Counts = [usize; 256];

fn history(seed: u64, length: usize, other: Other) -> Counts {
    let mut random = Xorshift::new(seed);
    let mut both = Both::new(&[0xA5; STATE], other);
    let mut counts = [0; 256];
    // Nothing is good before the start, which is made like any other call.
    for call in [Call::SubframeEnd, Call::Start] {
        both.make(&call);
    }
    for _ in 0..length {
        let call = calls::any(&mut random, both.state());
        counts[usize::from(both.make(&call).number)] += 1;
    }
    counts
}

/// A history is only worth something if it reaches every answer. 34 is reached by no call of it.
fn all_reached(counts: &Counts) {
    for number in (0..=7).chain(20..=32).chain(47..=49) {
        assert!(counts[number] > 10, "{number}: {:?}", &counts[..50]);
    }
}

#[test]
fn as_second_makes_it() {
    all_reached(&history(101, rounds(25_000), Call::make));
}

#[test]
fn as_fast_makes_it() {
    all_reached(&history(102, rounds(60_000), Call::make_fast));
}

/// Short ones, whose states are young, from many seeds. A seed's lowest bit makes no other one.
#[test]
fn many_short_ones() {
    for seed in 0..rounds(100) as u64 {
        history(1_000 + 2 * seed, 100, Call::make);
    }
}
