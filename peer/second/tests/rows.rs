//! Section 8: both sides of each edge. P1 to P12 are the proved table; the others are run by a program.

use second::golay::read_header;
use second::group::{packet, write_group};
use second::image::write_image;
use second::samples::states::started;
use second::table::{
    ask, board_text, follow, leave, set_header_flips, start, subframe_end, Lent, Table,
};
use second::types::read_type;

const ONES: u32 = 0x7F_FFFF;

fn bits(places: &[u32]) -> u32 {
    places.iter().map(|place| 1 << place).sum()
}

fn header(n: u32) -> (u16, u8) {
    let (number, address, index, _) = read_header(n);
    assert_eq!(number, 0, "reading a header is never refused");
    (address, index)
}

/// A state in which address 17 is followed, plain, and a plain packet for it.
fn following() -> Vec<u8> {
    let mut state = started();
    assert_eq!(follow(&mut state, 17, 0, 2), 0);
    state
}

fn plain(index: u32) -> [u8; 94] {
    write_image(17, index, 0, &[index as u8 + 1; 90])
}

/// Gap mark and awaited index of address 17.
fn marks(state: &[u8]) -> (bool, u8) {
    let mut table = Table::decode(state).expect("a good state");
    let slot = table.find(17).expect("a followed address");
    (slot.gap, slot.awaited)
}

#[test]
fn p1_to_p5_headers() {
    assert_eq!(header(0), (0, 0));
    assert_eq!(header(bits(&[0, 5, 22])), (0, 0));
    assert_eq!(header(ONES), (1023, 3));
    assert_eq!(header(ONES - bits(&[1, 2, 20])), (1023, 3));
    assert_ne!(header(bits(&[0, 1, 2, 3])), (0, 0));
}

#[test]
fn p6_to_p9_types() {
    let read = |byte| (read_type(byte).0, read_type(byte).1);
    assert_eq!(read(0x03), (0, 0x00));
    assert_eq!(read(0x07), (0, 0xC7));
    assert_eq!(read(0xFF), (0, 0x3F));
    assert_eq!(read(0x55), (28, 0));
}

#[test]
fn p10_awaiting_2_index_2_is_held() {
    let mut state = following();
    assert_eq!([0, 1].map(|c| packet(&mut state, &plain(c))), [1, 2]);
    assert_eq!(marks(&state), (false, 2));
    assert_eq!(packet(&mut state, &plain(2)), 2);
    assert_eq!(marks(&state), (false, 3));
}

#[test]
fn p11_awaiting_2_index_0_starts_and_marks_a_gap() {
    let mut state = following();
    assert_eq!([0, 1].map(|c| packet(&mut state, &plain(c))), [1, 2]);
    assert_eq!(packet(&mut state, &plain(0)), 1);
    assert_eq!(marks(&state), (true, 1));
}

#[test]
fn p12_awaiting_0_index_1_is_32() {
    let mut state = following();
    assert_eq!(packet(&mut state, &plain(1)), 32);
    assert_eq!(marks(&state), (true, 0));
}

#[test]
fn limit_2_is_fresh_at_ages_0_and_1_and_stale_at_2() {
    let mut state = following();
    assert_eq!(
        [0, 1, 2, 3].map(|c| packet(&mut state, &plain(c))),
        [1, 2, 2, 3]
    );
    let mut answers = Vec::new();
    for _ in 0..4 {
        answers.push(ask(&state, 17).0);
        assert_eq!(subframe_end(&mut state), 0);
    }
    assert_eq!(answers, [5, 5, 7, 7]);
}

#[test]
fn addresses_1_and_1022_pass() {
    for address in [1, 1022] {
        let mut state = started();
        assert_eq!(follow(&mut state, address, 0, 1), 0);
        assert_eq!(ask(&state, address), (4, 0, 0));
        assert_eq!(leave(&mut state, address), 0);
        assert_eq!(write_group(address, 0, &[0; 360], &mut [0; 376]), 0);
    }
}

#[test]
fn addresses_0_and_1023_give_22() {
    for address in [0, 1023, 1024, 65_537, u32::MAX] {
        let mut state = following();
        assert_eq!(follow(&mut state, address, 0, 1), 22);
        assert_eq!(ask(&state, address), (22, 0, 0));
        assert_eq!(leave(&mut state, address), 22);
        let notice = board_text(&state, address, &[1, 2, 3]);
        assert_eq!(notice, (22, Lent::Notice, 0, 3));
        assert_eq!(write_group(address, 0, &[0; 360], &mut [0; 376]), 22);
    }
}

/// 22 is not for packets. Free slots have address 0 in their bytes, and yet nobody follows it.
#[test]
fn packets_for_addresses_0_and_1023_are_not_followed() {
    for mut state in [started(), following()] {
        let before = state.clone();
        for address in [0, 1023] {
            for index in 0..4 {
                let image = write_image(address, index, 0, &[0xFF; 90]);
                assert_eq!(packet(&mut state, &image), 27);
            }
        }
        assert!(state == before);
    }
}

#[test]
fn the_seventeenth_follow_passes_after_a_leave() {
    let mut state = started();
    for address in 101..117 {
        assert_eq!(follow(&mut state, address, 1, 1500), 0);
    }
    let full = state.clone();
    assert_eq!(follow(&mut state, 117, 1, 1500), 26);
    // An address already followed is said before that there is no room.
    assert_eq!(follow(&mut state, 108, 1, 1500), 25);
    assert!(state == full);
    assert_eq!(leave(&mut state, 108), 0);
    assert_eq!(follow(&mut state, 117, 0, 3), 0);
    let table = Table::decode(&state).expect("a good state");
    let addresses: Vec<u32> = table.used().map(|slot| slot.address).collect();
    let expected: Vec<u32> = (101..108).chain([117]).chain(109..117).collect();
    assert_eq!(addresses, expected);
}

#[test]
fn image_byte_93_of_128_gives_21() {
    let mut state = following();
    let before = state.clone();
    for byte in 0..=255 {
        let mut image = plain(1);
        image[93] = byte;
        let answer = packet(&mut state.clone(), &image);
        // 127 is still data.
        assert_eq!(answer, if byte < 128 { 32 } else { 21 });
    }
    let mut image = plain(0);
    image[93] |= 128;
    assert_eq!(packet(&mut state, &image), 21);
    assert!(state == before);
}

#[test]
fn no_bytes_at_all_give_20() {
    let mut none: [u8; 0] = [];
    assert_eq!(start(&mut none), 20);
    assert_eq!(follow(&mut none, 17, 0, 1), 20);
    assert_eq!(leave(&mut none, 17), 20);
    assert_eq!(packet(&mut none, &plain(0)), 20);
    assert_eq!(packet(&mut following(), &[]), 20);
    assert_eq!(subframe_end(&mut none), 20);
    assert_eq!(set_header_flips(&mut none, 4), 20);
    assert_eq!(ask(&none, 17), (20, 0, 0));
    assert_eq!(board_text(&none, 17, &[]), (20, Lent::Notice, 0, 0));
    assert_eq!(write_group(17, 0, &[], &mut [0; 376]), 20);
    assert_eq!(write_group(17, 0, &[0; 360], &mut none), 20);
}
