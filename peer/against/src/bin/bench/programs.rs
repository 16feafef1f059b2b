//! The record program beside the second one's with its fast packet call: the same file through both programs, in rounds that alternate.

use std::fs::File;
use std::io::Write;
use std::path::{Path, PathBuf};
use std::process::{Command, Stdio};
use std::time::{Duration, Instant};

const ROUNDS: usize = 5;
/// Copies of the morning's feed in the file. Behind its bad record a program would read no more, so that one is left out.
const MORNINGS: usize = 20_000;

pub fn measure() {
    let root = Path::new(env!("CARGO_MANIFEST_DIR")).join("../..");
    let ours = root.join("crates/answers/out/answers");
    let second = beside("answers");
    for program in [&ours, &second] {
        if !program.exists() {
            println!("record program: {} is not built", program.display());
            return;
        }
    }
    let sample = std::fs::read(root.join("samples/morning.rec")).expect("the sample is there");
    let file = std::env::temp_dir().join(format!("mornings-{}.rec", std::process::id()));
    let records = write_mornings(&file, &sample);
    assert!(run(&ours, &file).0 == run(&second, &file).0, "both programs print the same");
    let mut best = [Duration::MAX; 2];
    for _ in 0..ROUNDS {
        for (program, best) in [&ours, &second].into_iter().zip(&mut best) {
            *best = run(program, &file).1.min(*best);
        }
    }
    std::fs::remove_file(&file).expect("the file can be removed");
    let [ours, second] = best.map(|time| time.as_secs_f64());
    let ratio = ours / second;
    println!();
    println!("record program, {records} records: ours {ours:.2} s, fast {second:.2} s, ratio {ratio:.2}");
}

/// A program that is built beside this one.
fn beside(name: &str) -> PathBuf {
    std::env::current_exe().expect("this program has a path").with_file_name(name)
}

/// The good records of the sample, again and again; how many there are.
fn write_mornings(file: &Path, sample: &[u8]) -> usize {
    let mut end = 0;
    let mut records = 0;
    while let Some(length) = good_record(&sample[end..]) {
        end += length;
        records += 1;
    }
    let mut out = File::create(file).expect("a file can be made");
    for _ in 0..MORNINGS {
        out.write_all(&sample[..end]).expect("it can be written");
    }
    records * MORNINGS
}

/// How many bytes the record in front has; none where it is cut or of another kind.
fn good_record(bytes: &[u8]) -> Option<usize> {
    let &[high, low, 1, 1..=5, ..] = bytes else {
        return None;
    };
    let length = 2 + usize::from(high) * 256 + usize::from(low);
    (length <= bytes.len()).then_some(length)
}

/// Ours takes no word from its command line, and does not look at one.
fn run(program: &Path, file: &Path) -> (Vec<u8>, Duration) {
    let input = File::open(file).expect("the file is there");
    let start = Instant::now();
    let output = Command::new(program)
        .arg("fast")
        .stdin(input)
        .stderr(Stdio::inherit())
        .output()
        .expect("the program runs");
    (output.stdout, start.elapsed())
}
