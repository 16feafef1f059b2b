//! The record program as it is built, against the second one, on whole files: long ones, cut ones, and fed in pieces of every size.

use std::io::Write;
use std::os::fd::OwnedFd;
use std::os::unix::net::UnixStream;
use std::path::PathBuf;
use std::process::{Command, Stdio};
use std::thread;

use second::records::answers;
use second::samples::calls::{any, Call};
use second::samples::rounds;
use second::table::{self, STATE};
use second::xorshift::Xorshift;

fn program() -> PathBuf {
    [env!("CARGO_MANIFEST_DIR"), "..", "..", "crates", "answers", "out", "answers"].iter().collect()
}

/// What the program prints, its input written in pieces of the given size.
fn ours(input: &[u8], piece: usize) -> String {
    let mut child = Command::new(program())
        .stdin(Stdio::piped())
        .stdout(Stdio::piped())
        .spawn()
        .expect("the record program is there: rt run in crates/answers");
    let mut stdin = child.stdin.take().expect("a pipe");
    let input = input.to_vec();
    let writer = thread::spawn(move || {
        for part in input.chunks(piece) {
            // Behind a bad record the program reads no more.
            if stdin.write_all(part).is_err() {
                break;
            }
        }
    });
    let output = child.wait_with_output().expect("it ends");
    writer.join().expect("the writer ends");
    String::from_utf8(output.stdout).expect("plain text")
}

fn record(file: &mut Vec<u8>, kind: u8, body: &[u8]) {
    file.extend((2 + body.len() as u16).to_be_bytes());
    file.extend([1, kind]);
    file.extend(body);
}

/// A call as a record; none for calls that no record has.
fn append(file: &mut Vec<u8>, call: &Call) {
    match call {
        &Call::Follow(address, protection, limit) => {
            let mut body = (address as u16).to_be_bytes().to_vec();
            body.push(protection as u8);
            body.extend((limit as u16).to_be_bytes());
            record(file, 3, &body);
        }
        &Call::Leave(address) => record(file, 4, &(address as u16).to_be_bytes()),
        Call::Packet(image) if image.len() == 94 => record(file, 1, image),
        Call::SubframeEnd => record(file, 2, &[]),
        &Call::Ask(address) => record(file, 5, &(address as u16).to_be_bytes()),
        _ => {}
    }
}

/// A history as a file of about so many records.
fn history(random: &mut Xorshift, records: usize) -> Vec<u8> {
    let mut state = [0; STATE];
    table::start(&mut state);
    let mut file = Vec::new();
    for _ in 0..records {
        let call = any(random, &state);
        // No record has these: the program starts once, and works at the setting 3.
        if !matches!(call, Call::Start | Call::SetHeaderFlips(_)) {
            call.make(&mut state);
            append(&mut file, &call);
        }
    }
    file
}

#[test]
fn long_files_in_pieces() {
    let mut random = Xorshift::new(701);
    for piece in [1, 3, 97, 98, 99, 4_095, 4_096, 4_097, 100_000] {
        let records = if piece < 90 { 300 } else { rounds(3_000) };
        let file = history(&mut random, records);
        assert!(ours(&file, piece) == answers(&file), "pieces of {piece}");
    }
}

#[test]
fn cut_anywhere() {
    let file = history(&mut Xorshift::new(702), 40);
    for length in 0..file.len().min(rounds(400)) {
        assert_eq!(ours(&file[..length], 4_096), answers(&file[..length]), "cut at {length}");
    }
}

#[test]
fn bad_heads() {
    let mut random = Xorshift::new(703);
    let file = history(&mut random, 60);
    for _ in 0..rounds(300) {
        let mut bad = file.clone();
        let at = random.below(bad.len());
        bad[at] = random.below(256) as u8;
        assert_eq!(ours(&bad, 1 + random.below(5_000)), answers(&bad), "byte {at}");
    }
    for head in [[0, 0, 1, 2], [0, 1, 1, 2], [255, 255, 1, 1], [0, 2, 2, 2], [0, 2, 1, 0], [0, 2, 1, 6], [0, 3, 1, 2], [2, 0, 1, 2]] {
        let mut bad = file.clone();
        bad.extend(head);
        bad.extend([0; 5_000]);
        assert_eq!(ours(&bad, 4_096), answers(&bad), "{head:?}");
    }
}

#[test]
fn nothing_at_all() {
    assert_eq!(ours(&[], 1), "answers 1\n");
}

/// A read that fails inside a record: no 35 for it, and one line on standard error.
#[test]
fn a_read_that_fails() {
    let (mut near, mut far) = UnixStream::pair().expect("a pair of sockets");
    near.write_all(&[0, 7, 1]).expect("the beginning of a record");
    // A socket that is closed on a byte that nobody took resets the other one.
    far.write_all(&[0]).expect("a byte");
    drop(near);
    let output = Command::new(program()).stdin(OwnedFd::from(far)).output().expect("it ends");
    assert_eq!(output.stdout, b"answers 1\n");
    assert_eq!(String::from_utf8_lossy(&output.stderr).lines().count(), 1);
}
