//! Section 10: errors that look reasonable; and readings of document 02, Ask 6, that do. Each test fails for an adapter that
//! makes its error.

use second::golay::read_word;
use second::group::{packet, packet_detail, write_group, Detailed};
use second::image::{write_image, HEADER_AT, TYPE_AT};
use second::samples::states::started;
use second::samples::{difference, flip, word_at};
use second::table::{ask, follow, subframe_end};
use second::types::{CONTROL, RESERVED};

type Images = Vec<Vec<u8>>;

/// A state in which address 17 is followed as protected, with a limit of 2.
fn following() -> Vec<u8> {
    let mut state = started();
    assert_eq!(follow(&mut state, 17, 1, 2), 0);
    state
}

/// The four images of a message of one byte over and over.
fn group(byte: u8) -> Images {
    let mut output = [0; 376];
    assert_eq!(write_group(17, 1, &[byte; 180], &mut output), 0);
    output.chunks(94).map(<[u8]>::to_vec).collect()
}

fn send(state: &mut [u8], images: &Images, indices: &[usize]) -> Vec<u8> {
    let call = |&index: &usize| packet(state, &images[index]);
    indices.iter().map(call).collect()
}

/// The number that ask answers, and the byte that the group it shows is made of.
fn asked(state: &[u8]) -> (u8, Option<u8>) {
    let (number, at, length) = ask(state, 17);
    let shown = &state[at..at + length];
    assert!(shown.windows(2).all(|pair| pair[0] == pair[1]), "one byte");
    (number, shown.first().copied())
}

/// "Keeping an unfinished group over an out-of-step packet, because its bytes were good."
#[test]
fn an_out_of_step_packet_ends_the_group() {
    let mut state = following();
    assert_eq!(send(&mut state, &group(1), &[0, 1, 3]), [1, 2, 32]);
    assert!(state[..360].iter().all(|&byte| byte == 0));
    // Index 2 was awaited, and is no longer.
    assert_eq!(send(&mut state, &group(1), &[2, 3]), [32, 32]);
    assert_eq!(asked(&state), (4, None));
}

/// "Clearing the gap mark when a group starts, not when one is whole."
#[test]
fn the_gap_mark_stays_until_a_group_is_whole() {
    let mut state = following();
    assert_eq!(send(&mut state, &group(1), &[0, 1, 2, 3]), [1, 2, 2, 3]);
    assert_eq!(asked(&state), (5, Some(1)));
    assert_eq!(send(&mut state, &group(2), &[1]), [32]);
    for (index, answer) in [(0, 1), (1, 2), (2, 2)] {
        assert_eq!(asked(&state), (6, Some(1)));
        assert_eq!(send(&mut state, &group(3), &[index]), [answer]);
    }
    assert_eq!(asked(&state), (6, Some(1)));
    assert_eq!(send(&mut state, &group(3), &[3]), [3]);
    assert_eq!(asked(&state), (5, Some(3)));
}

/// "Taking index 0 while 2 is awaited as damage and dropping it: the first good group is lost."
#[test]
fn an_early_start_is_a_start() {
    let mut state = following();
    assert_eq!(send(&mut state, &group(1), &[0, 1]), [1, 2]);
    assert_eq!(send(&mut state, &group(2), &[0, 1, 2, 3]), [1, 2, 2, 3]);
    assert_eq!(asked(&state), (5, Some(2)));
}

/// "Counting the header's flips into the type byte's allowance."
#[test]
fn header_and_type_are_put_right_apart() {
    for type_flips in 0..=3 {
        let mut state = following();
        let mut images = group(1);
        // Type hex 15 is none; with one flip less it reads as 00.
        let places = [0, 2, 4].map(|bit| TYPE_AT.start + bit);
        for place in [0, 9, 20].map(|bit| HEADER_AT.start + bit) {
            flip(&mut images[0], place);
        }
        for &place in &places[..type_flips] {
            flip(&mut images[0], place);
        }
        let answer = if type_flips <= 2 { 1 } else { 28 };
        assert_eq!(send(&mut state, &images, &[0]), [answer]);
    }
}

/// "Reading a 24-bit word by its first 23 bits alone: four flips then pass as three."
#[test]
fn the_last_bit_of_a_word_counts() {
    let mut state = following();
    let mut images = group(1);
    for bit in [2, 7, 11] {
        flip(&mut images[0], word_at(5).start + bit);
    }
    assert_eq!(send(&mut state, &images, &[0]), [1]);
    flip(&mut images[0], word_at(5).start + 23);
    assert_eq!(send(&mut state, &images, &[0]), [31]);
    assert_eq!(read_word(0x2E3001 ^ 0x000007), (0, 1, 3));
    assert_eq!(read_word(0x2E3001 ^ 0x800007), (31, 0, 0));
}

/// "Letting age start from the follow call."
#[test]
fn age_starts_from_the_whole_group() {
    let mut state = following();
    for _ in 0..5 {
        assert_eq!(subframe_end(&mut state), 0);
        assert_eq!(asked(&state), (4, None));
    }
    assert_eq!(send(&mut state, &group(1), &[0, 1, 2, 3]), [1, 2, 2, 3]);
    assert_eq!(asked(&state), (5, Some(1)));
    subframe_end(&mut state);
    assert_eq!(asked(&state), (5, Some(1)));
    subframe_end(&mut state);
    assert_eq!(asked(&state), (7, Some(1)));
}

/// Stale is said before doubtful.
#[test]
fn a_stale_group_with_a_gap_is_stale() {
    let mut state = following();
    assert_eq!(
        send(&mut state, &group(1), &[0, 1, 2, 3, 1]),
        [1, 2, 2, 3, 32]
    );
    subframe_end(&mut state);
    assert_eq!(asked(&state), (6, Some(1)));
    subframe_end(&mut state);
    assert_eq!(asked(&state), (7, Some(1)));
}

/// A packet of a type that is no data's, with useful bytes that are no words.
fn of_type(kind: u8, index: u32) -> Vec<u8> {
    write_image(17, index, kind, &[0x5A; 90]).to_vec()
}

/// Every byte that is read as a type: with no flip, with one and with two.
fn near(kind: u8) -> impl Iterator<Item = u8> {
    (0..=255).filter(move |byte: &u8| (byte ^ kind).count_ones() <= 2)
}

/// A control packet, of which nothing may come.
fn control(state: &mut [u8], image: &[u8]) {
    let before = state.to_vec();
    assert_eq!(packet_detail(state, image), Detailed::from(29));
    assert_eq!(difference(state, &before), None);
}

/// Four flips in a word.
fn spoil(image: &mut [u8], place: usize) {
    for bit in [0, 9, 18, 23] {
        flip(image, word_at(place).start + bit);
    }
}

fn told(number: u8, awaited_or_place: u8, came: u8) -> Detailed {
    Detailed {
        number,
        awaited_or_place,
        came,
    }
}

/// Wrong: 29 clears the awaited index, as a refusal. The group goes on behind it, wherever it comes and whatever its index.
#[test]
fn a_group_goes_on_behind_a_control_packet() {
    for byte in near(CONTROL) {
        for index in 0..4 {
            let mut state = following();
            for (next, answer) in [(0, 1), (1, 2), (2, 2), (3, 3)] {
                control(&mut state, &of_type(byte, index));
                assert_eq!(send(&mut state, &group(1), &[next]), [answer]);
            }
            assert_eq!(asked(&state), (5, Some(1)));
        }
    }
}

/// Wrong: 29 marks a gap, as every refusal once its address was found. What is fresh stays fresh.
#[test]
fn a_control_packet_marks_no_gap() {
    let mut state = following();
    control(&mut state, &of_type(CONTROL, 0));
    assert_eq!(asked(&state), (4, None));
    assert_eq!(send(&mut state, &group(1), &[0, 1, 2, 3]), [1, 2, 2, 3]);
    for index in 0..4 {
        control(&mut state, &of_type(CONTROL, index));
        assert_eq!(asked(&state), (5, Some(1)));
    }
    // Nor does it take a gap away.
    assert_eq!(send(&mut state, &group(2), &[1]), [32]);
    control(&mut state, &of_type(CONTROL, 0));
    assert_eq!(asked(&state), (6, Some(1)));
}

/// Wrong: a control packet shows that the address lives, so its group is as good as new.
#[test]
fn a_control_packet_keeps_no_group_fresh() {
    let mut state = following();
    assert_eq!(send(&mut state, &group(1), &[0, 1, 2, 3]), [1, 2, 2, 3]);
    for number in [5, 7] {
        assert_eq!(subframe_end(&mut state), 0);
        control(&mut state, &of_type(CONTROL, 0));
        assert_eq!(asked(&state), (number, Some(1)));
    }
}

/// Wrong: "directly after a start" no longer holds, as 29 stands between: 3, 1, 29, 1 would be fresh. The rest of a group is missing
/// all the same.
#[test]
fn an_early_start_behind_a_control_packet_is_a_gap() {
    for begun in [&[0][..], &[0, 1], &[0, 1, 2]] {
        let mut state = following();
        assert_eq!(send(&mut state, &group(1), &[0, 1, 2, 3]), [1, 2, 2, 3]);
        send(&mut state, &group(2), begun);
        control(&mut state, &of_type(CONTROL, 0));
        assert_eq!(asked(&state), (5, Some(1)));
        assert_eq!(send(&mut state, &group(3), &[0]), [1]);
        assert_eq!(asked(&state), (6, Some(1)));
    }
}

/// Wrong the other way: 3, 29, 1 is no gap, as nothing was under way.
#[test]
fn a_start_behind_a_whole_group_and_a_control_packet_is_no_gap() {
    let mut state = following();
    assert_eq!(send(&mut state, &group(1), &[0, 1, 2, 3]), [1, 2, 2, 3]);
    control(&mut state, &of_type(CONTROL, 3));
    assert_eq!(send(&mut state, &group(2), &[0]), [1]);
    assert_eq!(asked(&state), (5, Some(1)));
}

/// Wrong: C7 is 29 still; or it has its own number, and what 29 no longer does it does not do either.
#[test]
fn type_c7_ends_the_group() {
    for byte in near(RESERVED) {
        for begun in [&[][..], &[0], &[0, 1], &[0, 1, 2]] {
            let mut state = following();
            assert_eq!(send(&mut state, &group(1), &[0, 1, 2, 3]), [1, 2, 2, 3]);
            send(&mut state, &group(2), begun);
            // Also where it has the index that is awaited.
            let image = of_type(byte, begun.len() as u32);
            assert_eq!(packet_detail(&mut state, &image), Detailed::from(47));
            assert!(state[..360].iter().all(|&byte| byte == 0));
            assert_eq!(asked(&state), (6, Some(1)));
            assert_eq!(send(&mut state, &group(2), &[1, 2, 3]), [32, 32, 32]);
        }
    }
}

/// Wrong: the two indices of 32 exchanged; or the one that is awaited behind the call, which is always 0.
#[test]
fn the_awaited_index_is_told_first() {
    for awaited in 0..4 {
        for came in (1..4).filter(|&came| came != awaited) {
            let mut state = following();
            let images = group(1);
            send(&mut state, &images, &[0, 1, 2][..awaited]);
            let answer = packet_detail(&mut state, &images[came]);
            assert_eq!(answer, told(32, awaited as u8, came as u8));
            // It was dropped: what is awaited now is 0.
            let answer = packet_detail(&mut state, &images[came]);
            assert_eq!(answer, told(32, 0, came as u8));
        }
    }
}

/// Wrong: the place of the last word that failed, or how many did; or the packet's index beside it.
#[test]
fn the_first_word_that_failed_is_told() {
    for first in 0..30 {
        for last in first..30 {
            let mut state = following();
            let mut images = group(1);
            spoil(&mut images[1], first);
            if last != first {
                spoil(&mut images[1], last);
            }
            assert_eq!(send(&mut state, &images, &[0]), [1]);
            let answer = packet_detail(&mut state, &images[1]);
            assert_eq!(answer, told(31, first as u8, 0));
        }
    }
}

/// Wrong: what a call carried before is there still. Only 31 and 32 carry anything.
#[test]
fn nothing_is_left_over_from_the_call_before() {
    let images = group(1);
    let mut bad_word = images[1].clone();
    spoil(&mut bad_word, 17);
    let mut spare = images[0].clone();
    spare[93] |= 128;
    let elsewhere = write_image(18, 2, 0, &[7; 90]).to_vec();
    let others = [
        (&images[0], 1),
        (&spare, 21),
        (&elsewhere, 27),
        (&of_type(0x55, 2), 28),
        (&of_type(CONTROL, 2), 29),
        (&of_type(RESERVED, 2), 47),
        (&of_type(0xF8, 2), 30),
    ];
    for (image, number) in others {
        for (before, answer) in [(&images[3], told(32, 0, 3)), (&bad_word, told(31, 17, 0))] {
            let mut state = following();
            assert_eq!(packet_detail(&mut state, before), answer);
            assert_eq!(packet_detail(&mut state, image), Detailed::from(number));
            assert_eq!(packet_detail(&mut state, &image[1..]), Detailed::from(20));
        }
    }
}
