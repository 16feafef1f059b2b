//! The state: what is good, the order of every call's refusals, and what each call leaves behind.

use second::samples::calls::{self, Call};
use second::samples::{difference, rounds, states};
use second::slot::SLOT;
use second::table::{
    ask, board_text, follow, leave, set_header_flips, start, subframe_end, Lent, SETTING_AT, STATE,
};
use second::xorshift::Xorshift;

fn calls() -> Vec<Call> {
    let image = second::image::write_image(17, 0, 0, &[1; 90]).to_vec();
    vec![
        Call::Follow(18, 0, 1),
        Call::Leave(17),
        Call::Packet(image),
        Call::SubframeEnd,
        Call::SetHeaderFlips(2),
        Call::Ask(17),
        Call::BoardText(17, vec![1, 2]),
    ]
}

/// Whether every call takes a state for good, or every call refuses it with 34 and leaves it as it is.
fn is_good(state: &[u8]) -> bool {
    let refused = |call: Call| {
        let mut after = state.to_vec();
        let number = call.make(&mut after).number;
        assert!(number != 34 || after == state, "{call:02x?}");
        number == 34
    };
    let all = calls().len();
    let count = calls()
        .into_iter()
        .filter(|call| refused(call.clone()))
        .count();
    assert!(count == 0 || count == all, "the calls differ");
    count == 0
}

/// Address 17 followed in the first slot, and some bytes of it set by hand.
fn with(at: usize, bytes: &[u8]) -> Vec<u8> {
    let mut state = states::started();
    assert_eq!(follow(&mut state, 17, 1, 300), 0);
    state[at..at + bytes.len()].copy_from_slice(bytes);
    state
}

#[test]
fn a_follow_writes_the_head() {
    let state = with(0, &[]);
    assert_eq!(state[..720], [0; 720]);
    assert_eq!(
        state[720..SLOT],
        [17, 0, 0, 0, 44, 1, 0, 0, 0, 0, 0, 0, 1, 0, 0, 0]
    );
    assert!(state[SLOT..SETTING_AT].iter().all(|&byte| byte == 0));
    assert_eq!(state[SETTING_AT..], [3]);
}

#[test]
fn start_works_on_anything() {
    let mut random = Xorshift::new(71);
    let mut state: Vec<u8> = (0..STATE).map(|_| random.below(256) as u8).collect();
    assert!(!is_good(&state));
    assert_eq!(start(&mut state), 0);
    assert!(state[..SETTING_AT].iter().all(|&byte| byte == 0));
    assert_eq!(state[SETTING_AT..], [3]);
    assert!(is_good(&state));
}

#[test]
fn bounds_of_the_numbers() {
    let bounds = [(720, 1, 1022), (724, 1, 1500), (728, 0, 1500)];
    for (at, low, high) in bounds {
        let numbers = [0, 1, 2, 1022, 1023, 1499, 1500, 1501, 65_536 + 17, 1 << 31];
        for number in numbers {
            let state = with(at, &u32::to_le_bytes(number));
            assert_eq!(is_good(&state), (low..=high).contains(&number));
        }
    }
}

#[test]
fn bounds_of_the_bytes() {
    for (at, most) in [(732, 1), (733, 3), (734, 1), (735, 1), (11_776, 3)] {
        for byte in 0..=255 {
            assert_eq!(is_good(&with(at, &[byte])), byte <= most);
        }
    }
}

/// Free is all 736 bytes 0. An address alone does not make a slot used either: its limit is 0.
#[test]
fn a_stray_byte_in_a_free_slot() {
    for place in 0..SLOT {
        let state = with(SLOT * (1 + place % 15) + place, &[1]);
        assert!(!is_good(&state), "{place}");
    }
}

#[test]
fn dirt_in_the_rooms_of_a_used_slot_is_not_tested() {
    assert!(is_good(&with(0, &[0xA5; 720])));
}

#[test]
fn no_two_slots_share_an_address() {
    let slot = with(0, &[])[..SLOT].to_vec();
    for place in 1..16 {
        assert!(!is_good(&with(SLOT * place, &slot)));
        let mut other = slot.clone();
        other[720] = 18;
        assert!(is_good(&with(SLOT * place, &other)));
    }
}

#[test]
fn states_made_by_hand_are_what_they_are_called() {
    let mut random = Xorshift::new(72);
    for _ in 0..rounds(300) {
        assert!(is_good(&states::good(&mut random)));
        assert!(!is_good(&states::bad(&mut random)));
    }
}

/// Every later row holds too, so that only the order can decide.
#[test]
fn the_order_of_follow() {
    let good = with(0, &[]);
    let bad = with(735, &[2]);
    let mut full = good.clone();
    for address in 101..116 {
        assert_eq!(follow(&mut full, address, 0, 1), 0);
    }
    let rows: [(&[u8], u32, u32, u32, u8); 9] = [
        (&bad[1..], 0, 2, 0, 20),
        (&bad, 0, 2, 0, 34),
        (&full, 0, 2, 0, 22),
        (&full, 1023, 2, 0, 22),
        (&full, 17, 2, 0, 23),
        (&full, 17, 1, 0, 24),
        (&full, 17, 1, 1501, 24),
        (&full, 17, 1, 1500, 25),
        (&full, 18, 1, 1500, 26),
    ];
    for (state, address, protection, limit, number) in rows {
        let mut after = state.to_vec();
        assert_eq!(follow(&mut after, address, protection, limit), number);
        assert_eq!(difference(&after, state), None);
    }
    // Numbers that would be right once their high bits are cut off.
    assert_eq!(follow(&mut full.clone(), 1024 + 18, 0, 1), 22);
    assert_eq!(follow(&mut full.clone(), 18, 256, 1), 23);
    assert_eq!(follow(&mut full.clone(), 18, 0, 65_537), 24);
}

#[test]
fn the_order_of_the_others() {
    let good = with(0, &[]);
    let bad = with(735, &[2]);
    let rows: [(&[u8], u32, u8); 5] = [
        (&bad[1..], 0, 20),
        (&bad, 0, 34),
        (&good, 0, 22),
        (&good, 1024 + 17, 22),
        (&good, 18, 27),
    ];
    for (state, address, number) in rows {
        let mut after = state.to_vec();
        assert_eq!(leave(&mut after, address), number);
        assert_eq!(difference(&after, state), None);
        assert_eq!(ask(state, address), (number, 0, 0));
        let notice = board_text(state, address, &[0; 9]);
        assert_eq!(notice, (number, Lent::Notice, 0, 9));
    }
    assert_eq!(subframe_end(&mut bad[1..].to_vec()), 20);
    assert_eq!(subframe_end(&mut bad.clone()), 34);
    assert_eq!(start(&mut bad[1..].to_vec()), 20);
}

/// It writes the last byte and no other; refused, it writes none. No number is cut to a byte.
#[test]
fn the_setting() {
    let good = with(0, &[]);
    let bad = with(735, &[2]);
    for most in [0, 1, 2, 3, 4, 255, 256, 257, 65_539, u32::MAX] {
        let rows: [(&[u8], u8); 3] = [
            (&bad[1..], 20),
            (&bad, 34),
            (&good, if most <= 3 { 0 } else { 48 }),
        ];
        for (state, number) in rows {
            let mut after = state.to_vec();
            assert_eq!(set_header_flips(&mut after, most), number);
            let mut expected = state.to_vec();
            if number == 0 {
                expected[11_776] = most as u8;
            }
            assert_eq!(difference(&after, &expected), None, "{most}");
        }
    }
}

/// A state of 11,776 bytes, as it was before there was a setting, has the wrong length.
#[test]
fn lengths_of_the_state() {
    assert_eq!(STATE - 1, 11_776);
    for length in [0, 1, 16, 720, SLOT, STATE - 1, STATE + 1, 2 * STATE] {
        for call in calls().into_iter().chain([Call::Start]) {
            let mut state = vec![0xA5; length];
            assert_eq!(call.make(&mut state).number, 20);
            assert!(state.iter().all(|&byte| byte == 0xA5));
        }
    }
}

/// Age grows where there is a whole group, and stops at 1,500.
#[test]
fn subframe_ends() {
    let rows = [
        (0, 0, 0),
        (7, 0, 7),
        (1500, 0, 1500),
        (0, 1, 1),
        (255, 1, 256),
        (1499, 1, 1500),
        (1500, 1, 1500),
    ];
    for (age, whole, later) in rows {
        let mut state = with(728, &u32::to_le_bytes(age));
        state[734] = whole;
        let mut expected = state.clone();
        expected[728..732].copy_from_slice(&u32::to_le_bytes(later));
        assert_eq!(subframe_end(&mut state), 0);
        assert_eq!(difference(&state, &expected), None);
    }
}

/// Each row of section 5, and the part that goes with it: the slot's whole room, at the group's true length.
#[test]
fn ask_and_board_text() {
    for place in 0..16 {
        for protection in 0..2 {
            let mut state = states::started();
            for address in 1..=16 {
                assert_eq!(follow(&mut state, address, protection, 3), 0);
            }
            let head = SLOT * place + 720;
            let address = 1 + place as u32;
            let part = (SLOT * place + 360, if protection == 1 { 180 } else { 360 });
            for (age, whole, gap, number) in [
                (0, 0, 0, 4),
                (1500, 0, 1, 4),
                (0, 1, 0, 5),
                (2, 1, 0, 5),
                (2, 1, 1, 6),
                (3, 1, 0, 7),
                (3, 1, 1, 7),
                (200, 1, 0, 7),
            ] {
                state[head + 8] = (age % 256) as u8;
                state[head + 9] = (age / 256) as u8;
                state[head + 14] = whole;
                state[head + 15] = gap;
                let (at, length) = if number == 4 { (0, 0) } else { part };
                assert_eq!(ask(&state, address), (number, at, length));
                let text = board_text(&state, address, &[7; 5]);
                let expected = if number == 5 {
                    (5, Lent::State, at, length)
                } else {
                    (number, Lent::Notice, 0, 5)
                };
                assert_eq!(text, expected);
            }
        }
    }
}

/// 28, 47, 30, 31 and 32 "clear the slot's unfinished group ... All others change no lent byte", 29 among them.
#[test]
fn refusals_change_nothing_else() {
    let mut random = Xorshift::new(73);
    for _ in 0..rounds(2_000) {
        let mut state = states::good(&mut random);
        let before = state.clone();
        let call = calls::any(&mut random, &state);
        let number = call.make(&mut state).number;
        if number >= 20 && ![28, 47, 30, 31, 32].contains(&number) {
            assert_eq!(difference(&state, &before), None, "{call:02x?}");
        }
    }
}
