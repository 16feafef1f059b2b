//! Timing: the best of several rounds, which alternate so that both sides meet the same state of the machine.

use std::hint::black_box;
use std::time::{Duration, Instant};

const ROUNDS: usize = 40;
/// Passes over all inputs in a round, so that the clock's grain does not show.
const PASSES: usize = 20;

/// Nanoseconds for one call of each side.
pub struct Row {
    ours: f64,
    fast: f64,
}

pub fn heading() {
    println!("best of {ROUNDS} alternating rounds, both sides on the same inputs in the same run");
    println!("ours is called through the C boundary, fast through a pointer in the same shape: neither is inlined");
    println!(
        "buffers are not cleared between calls; both sides test the whole state at every packet"
    );
    println!();
    let columns = ["ours ns", "fast ns", "ratio", "ours a second"];
    let [ours, fast, ratio, rate] = columns;
    println!("{:46}{ours:>10}{fast:>10}{ratio:>8}{rate:>16}", "");
}

impl Row {
    pub fn measure(
        calls: usize,
        mut ours: impl FnMut() -> u64,
        mut fast: impl FnMut() -> u64,
    ) -> Row {
        assert_eq!(ours(), fast(), "both sides give the same answers");
        let mut best = [Duration::MAX; 2];
        for round in 0..ROUNDS {
            // Who goes first alternates too.
            if round % 2 == 0 {
                best[0] = best[0].min(time(&mut ours));
                best[1] = best[1].min(time(&mut fast));
            } else {
                best[1] = best[1].min(time(&mut fast));
                best[0] = best[0].min(time(&mut ours));
            }
        }
        let [ours, fast] = best.map(|whole| whole.as_nanos() as f64 / (calls * PASSES) as f64);
        Row { ours, fast }
    }

    pub fn print(&self, name: &str) {
        let ratio = self.ours / self.fast;
        let rate = 1e9 / self.ours;
        let Row { ours, fast } = self;
        println!("{name:46}{ours:10.2}{fast:10.2}{ratio:8.2}{rate:16.0}");
    }
}

fn time(pass: &mut impl FnMut() -> u64) -> Duration {
    let start = Instant::now();
    for _ in 0..PASSES {
        black_box(pass());
    }
    start.elapsed()
}
