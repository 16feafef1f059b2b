//! The record program: the paper's sample, bad records of every sort, and a whole group by way of records.

use second::group::write_group;
use second::image::write_image;
use second::records::{answers, answers_by};

/// A record of version 1.
fn record(kind: u8, body: &[u8]) -> Vec<u8> {
    let length = (body.len() + 2) as u16;
    let mut bytes = length.to_be_bytes().to_vec();
    bytes.extend([1, kind]);
    bytes.extend(body);
    bytes
}

fn follow(address: u16, protection: u8, limit: u16) -> Vec<u8> {
    let ([a, b], [c, d]) = (address.to_be_bytes(), limit.to_be_bytes());
    record(3, &[a, b, protection, c, d])
}

fn ask(address: u16) -> Vec<u8> {
    record(5, &address.to_be_bytes())
}

/// The numbers after the first line; the lines have to be numbered from 1.
fn numbers(input: &[u8]) -> Vec<u8> {
    let text = answers(input);
    let mut lines = text.strip_suffix('\n').expect("whole lines").split('\n');
    assert_eq!(lines.next(), Some("answers 1"));
    let mut numbers = Vec::new();
    for (line, count) in lines.zip(1..) {
        let number = line.strip_prefix(&format!("{count} ")).expect("a count");
        numbers.push(number.parse().expect("a number"));
    }
    numbers
}

#[test]
fn the_sample() {
    let input = [
        0x00, 0x07, 0x01, 0x03, 0x00, 0x11, 0x01, 0x00, 0x02, // follow
        0x00, 0x04, 0x01, 0x05, 0x00, 0x11, // ask
        0x00, 0x07, 0x01, 0x03, 0x00, 0x11, 0x01, 0x00, 0x02, // follow
        0x00, 0x02, 0x01, 0x02, // subframe end
        0x00, 0x04, 0x01, 0x04, 0x00, 0x11, // leave
        0x00, 0x04, 0x01, 0x05, 0x00, 0x11, // ask
        0x00, 0x07, 0x01, 0x03, 0x00, 0x00, 0x01, 0x00, 0x02, // follow
    ];
    assert_eq!(input.len(), 49);
    let output = "answers 1\n1 0\n2 4\n3 25\n4 0\n5 0\n6 27\n7 22\n";
    assert_eq!(answers(&input), output);
}

#[test]
fn no_input_prints_the_first_line() {
    assert_eq!(answers(&[]), "answers 1\n");
}

#[test]
fn a_group_comes_and_grows_stale() {
    let mut images = [0; 376];
    assert_eq!(write_group(1022, 1, &[0x5A; 180], &mut images), 0);
    let mut input = follow(1022, 1, 2);
    for image in images.chunks(94) {
        input.extend(record(1, image));
    }
    for _ in 0..2 {
        input.extend(ask(1022));
        input.extend(record(2, &[]));
    }
    input.extend(ask(1022));
    input.extend(record(1, &images[94..188]));
    let answers = [0, 1, 2, 2, 3, 5, 0, 5, 0, 7, 32];
    assert_eq!(numbers(&input), answers);
}

/// No record sets the greatest number of flips in a header: the program works at 3, whatever it reads.
#[test]
fn three_flips_in_a_header_are_put_right() {
    let mut images = [0; 376];
    assert_eq!(write_group(17, 0, &[7; 360], &mut images), 0);
    let mut input = follow(17, 0, 2);
    for image in images.chunks_mut(94) {
        image[1] ^= 0b0100_1001;
        input.extend(record(1, image));
    }
    assert_eq!(numbers(&input), [0, 1, 2, 2, 3]);
}

/// A line has the bare number, whatever it carries: a control packet in mid-group, of which nothing comes; type C7, which ends
/// the group; and with 31 and 32 neither place nor index.
#[test]
fn numbers_stand_alone() {
    let mut images = [0; 376];
    assert_eq!(write_group(17, 1, &[7; 180], &mut images), 0);
    let mut parts: Vec<Vec<u8>> = images.chunks(94).map(|image| record(1, image)).collect();
    let [control, reserved] =
        [0x3F, 0xC7].map(|kind| record(1, &write_image(17, 2, kind, &[7; 90])));
    images[20] ^= 0x0F;
    parts.push(record(1, &images[..94]));
    let [p0, p1, p2, p3, hurt] = &parts[..] else {
        panic!("five packets");
    };
    let input = [
        &follow(17, 1, 2),
        p0,
        p1,
        &control,
        p2,
        &control,
        p3,
        &ask(17),
        &control,
        &ask(17),
        p0,
        &reserved,
        p1,
        &ask(17),
        hurt,
    ];
    let input: Vec<u8> = input.into_iter().flatten().copied().collect();
    let expected = [0, 1, 2, 29, 2, 29, 3, 5, 29, 5, 1, 47, 32, 6, 31];
    assert_eq!(numbers(&input), expected);
    assert_eq!(answers_by(second::fast::packet, &input), answers(&input));
}

/// Refused calls print their number, and the program goes on.
#[test]
fn refusals_do_not_stop_it() {
    let mut image = [0; 94];
    let unfollowed = record(1, &image);
    image[93] = 128;
    let input = [
        follow(0, 0, 1),
        follow(65_535, 2, 0),
        follow(1022, 2, 0),
        follow(1022, 1, 0),
        follow(1022, 1, 65_535),
        follow(1022, 1, 1501),
        follow(1022, 1, 1500),
        unfollowed,
        record(1, &image),
        record(4, &[0, 0]),
        record(4, &[0, 17]),
        ask(1023),
        ask(1022),
    ];
    let answers = [22, 22, 23, 24, 24, 24, 0, 27, 21, 22, 27, 22, 4];
    assert_eq!(numbers(&input.concat()), answers);
}

/// 35 is printed as a line, and nothing behind it is looked at.
#[test]
fn bad_records_stop_it() {
    let good = ask(17);
    let bad: [&[u8]; 14] = [
        &[0, 0],
        &[0, 1, 1],
        &[0, 2, 0, 2],
        &[0, 2, 2, 2],
        &[0, 2, 1, 0],
        &[0, 2, 1, 6],
        &[0, 2, 1, 255],
        &[0, 3, 1, 2, 0],
        &[0, 2, 1, 5],
        &[0, 3, 1, 5, 0],
        &[0, 5, 1, 5, 0, 17, 0],
        &[0, 4, 2, 5, 0, 17],
        &[4, 0, 1, 5, 0, 17],
        &[255, 255, 1, 1],
    ];
    for record in bad {
        let input = [&good, record, &good].concat();
        assert_eq!(numbers(&input), [27, 35], "{record:02x?}");
        let input = [&good, record].concat();
        assert_eq!(numbers(&input), [27, 35], "{record:02x?}");
    }
}

/// Each kind with every length of body.
#[test]
fn bodies_have_the_length_of_their_kind() {
    for kind in 0..=255 {
        let length = match kind {
            1 => Some(94),
            2 => Some(0),
            3 => Some(5),
            4 | 5 => Some(2),
            _ => None,
        };
        for body in 0..=100 {
            let number = numbers(&record(kind, &vec![0; body]))[0];
            assert_eq!(number != 35, length == Some(body), "{kind} {body}");
        }
    }
}

/// An input that ends inside a record, wherever that is; a record's end is no such place.
#[test]
fn cut_short() {
    let records = [
        follow(17, 0, 1),
        record(1, &[0; 94]),
        record(2, &[]),
        ask(17),
    ];
    let whole = [0, 27, 0, 4];
    let input = records.concat();
    let ends: Vec<usize> = (0..=4)
        .map(|count| records[..count].concat().len())
        .collect();
    for length in 0..=input.len() {
        let done = ends.iter().filter(|&&end| end <= length).count() - 1;
        let mut answers = whole[..done].to_vec();
        if !ends.contains(&length) {
            answers.push(35);
        }
        assert_eq!(numbers(&input[..length]), answers, "{length}");
    }
}
