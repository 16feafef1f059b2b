//! Document 02, Ask 7: the setting in the state, for packets' headers. Both sides of its edges, and a test for each wrong
//! reading that looks reasonable, which fails for an adapter that reads it so.

use second::group::{packet, write_group};
use second::image::{protect, write_image, HEADER_AT, TYPE_AT};
use second::samples::states::started;
use second::samples::{difference, flip, word_at, WORDS};
use second::table::{
    ask, follow, leave, set_header_flips, start, subframe_end, Table, SETTING_AT, STATE,
};

type Image = [u8; 94];

/// A state in which address 17 is followed as plain, with a limit of 2, at a setting.
fn following(most: u32) -> Vec<u8> {
    let mut state = started();
    assert_eq!(follow(&mut state, 17, 0, 2), 0);
    assert_eq!(set_header_flips(&mut state, most), 0);
    state
}

/// A packet with so many flips in its header.
fn hurt(address: u32, index: u32, flips: usize) -> Image {
    let mut image = write_image(address, index, 0, &[index as u8 + 1; 90]);
    for bit in &[3, 11, 22][..flips] {
        flip(&mut image, HEADER_AT.start + bit);
    }
    image
}

fn setting(state: &[u8]) -> u32 {
    Table::decode(state).expect("a good state").setting
}

/// A packet that has to be refused with 49, and to change no byte.
fn refused(state: &mut [u8], image: &[u8]) {
    let before = state.to_vec();
    assert_eq!(packet(state, image), 49);
    assert_eq!(difference(state, &before), None);
}

/// Wrong: "less than the set number". As many flips as it says are put right, at 0 to 3 of both.
#[test]
fn the_set_number_itself_is_put_right() {
    for most in 0..=3 {
        for flips in 0..=3 {
            let mut state = following(most as u32);
            if flips > most {
                refused(&mut state, &hurt(17, 0, flips));
            } else {
                assert_eq!(packet(&mut state, &hurt(17, 0, flips)), 1);
            }
        }
    }
}

/// Wrong: 49 behind 27, since the address is known to be nobody's. It is not known: the header was not read.
#[test]
fn an_address_that_nobody_follows_is_no_address() {
    for most in 0..3 {
        for address in [0, 18, 1023] {
            let mut state = following(most);
            refused(&mut state, &hurt(address, 0, 3));
            assert_eq!(packet(&mut state, &hurt(address, 0, most as usize)), 27);
        }
    }
}

/// Wrong: 49 is a packet of the address that could not be read, so it drops the group and marks a gap, as 28 does.
#[test]
fn a_group_goes_on_behind_it() {
    let mut state = following(1);
    for index in 0..4 {
        // One that would be out of step, and the one that is awaited.
        refused(&mut state, &hurt(17, (index + 2) % 4, 2));
        refused(&mut state, &hurt(17, index, 2));
        let answers = [1, 2, 2, 3];
        assert_eq!(
            packet(&mut state, &hurt(17, index, 1)),
            answers[index as usize]
        );
        assert_eq!(ask(&state, 17).0, if index == 3 { 5 } else { 4 });
    }
    refused(&mut state, &hurt(17, 1, 2));
    assert_eq!(ask(&state, 17), (5, 360, 360));
}

/// Wrong: a group is read at the setting that it began with.
#[test]
fn it_holds_from_the_call_on() {
    let mut state = following(3);
    let rows = [
        (3, 0, 3, 1),
        (0, 1, 1, 49),
        (0, 1, 0, 2),
        (2, 2, 2, 2),
        (2, 3, 3, 49),
        (3, 3, 3, 3),
    ];
    for (most, index, flips, answer) in rows {
        assert_eq!(set_header_flips(&mut state, most), 0);
        assert_eq!(packet(&mut state, &hurt(17, index, flips)), answer);
    }
    assert_eq!(ask(&state, 17).0, 5);
}

/// Wrong: start sets every byte to 0, this one too. Then no flip would be put right where nobody asked for that.
#[test]
fn start_puts_3() {
    let mut state = following(0);
    assert_eq!(start(&mut state), 0);
    assert_eq!(setting(&state), 3);
    assert_eq!(follow(&mut state, 17, 0, 2), 0);
    assert_eq!(packet(&mut state, &hurt(17, 0, 3)), 1);
    // A bad one is mended, too.
    state[SETTING_AT] = 4;
    assert_eq!(subframe_end(&mut state), 34);
    assert_eq!(start(&mut state), 0);
    assert_eq!(setting(&state), 3);
}

/// Wrong: a slot that is taken or given up takes the setting with it. It is the state's, and nobody else changes it.
#[test]
fn every_other_call_keeps_it() {
    for most in 0..=3 {
        let mut state = started();
        assert_eq!(set_header_flips(&mut state, most), 0);
        for address in 101..=116 {
            assert_eq!(follow(&mut state, address, 0, 1), 0);
        }
        let mut answers = vec![follow(&mut state, 117, 0, 1), leave(&mut state, 116)];
        let kinds = [0x3F, 0xC7, 0xF8, 0x55].map(|kind| (0, kind));
        for (index, kind) in [(0, 0), (1, 0), (3, 0)].into_iter().chain(kinds) {
            answers.push(packet(&mut state, &write_image(101, index, kind, &[7; 90])));
        }
        for address in (101..=115).rev() {
            assert_eq!(subframe_end(&mut state), 0);
            assert_eq!(leave(&mut state, address), 0);
        }
        assert_eq!(answers, [26, 0, 1, 2, 32, 29, 47, 30, 28]);
        // Nothing else is left.
        let mut expected = vec![0; STATE];
        expected[SETTING_AT] = most as u8;
        assert_eq!(difference(&state, &expected), None);
    }
}

/// Wrong: a setting above 3 is as good as 3, or is cut to its lowest bits.
#[test]
fn a_setting_above_3_is_refused() {
    for most in [4, 7, 255, 256, 257, u32::MAX] {
        let mut state = following(1);
        assert_eq!(set_header_flips(&mut state, most), 48);
        assert_eq!(setting(&state), 1);
    }
}

/// Wrong: the setting is for all codes. Type byte and words are put right as before.
#[test]
fn only_headers_are_held_to_it() {
    let mut state = started();
    assert_eq!(follow(&mut state, 17, 1, 2), 0);
    assert_eq!(set_header_flips(&mut state, 0), 0);
    let mut image = write_image(17, 0, 0, &protect(&[7; 45]));
    for bit in [0, 5] {
        flip(&mut image, TYPE_AT.start + bit);
    }
    for place in 0..WORDS {
        for bit in [0, 7, 23] {
            flip(&mut image, word_at(place).start + bit);
        }
    }
    assert_eq!(packet(&mut state, &image), 1);
    assert_eq!(state[..45], [7; 45]);
}

/// A group as it is written has no flips.
#[test]
fn what_is_written_is_read_at_every_setting() {
    let message: Vec<u8> = (0..360).map(|i| i as u8).collect();
    let mut images = [0; 376];
    assert_eq!(write_group(17, 0, &message, &mut images), 0);
    for most in 0..=3 {
        let mut state = following(most);
        let answers: Vec<u8> = images.chunks(94).map(|i| packet(&mut state, i)).collect();
        assert_eq!(answers, [1, 2, 2, 3]);
        assert_eq!(state[360..720], message);
    }
}
