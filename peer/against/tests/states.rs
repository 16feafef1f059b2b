//! States that calls alone need never lead to, and wrong lengths: the library against the second implementation.

use against::both::Both;
use second::image::{protect, write_image, IMAGE};
use second::samples::calls::{self, Call};
use second::samples::{rounds, states};
use second::slot::{Slot, SLOT};
use second::table::{Table, SETTING_AT, SLOTS, STATE};
use second::types::DATA;
use second::xorshift::Xorshift;

fn make(state: &[u8], call: &Call) -> u8 {
    Both::new(state, Call::make).make(call).number
}

/// One call of every sort, for an address that may be followed or not.
fn each(address: u32, image: &[u8]) -> [Call; 9] {
    [
        Call::Start,
        Call::Follow(address, 1, 9),
        Call::Leave(address),
        Call::Packet(image.to_vec()),
        Call::SubframeEnd,
        Call::SetHeaderFlips(1),
        Call::SetHeaderFlips(4),
        Call::Ask(address),
        Call::BoardText(address, vec![1, 2, 3]),
    ]
}

/// The calls that test the state, with a plain packet.
fn all_but_start(address: u32) -> Vec<Call> {
    let image = write_image(address, 0, DATA, &[7; 90]);
    each(address, &image)[1..].to_vec()
}

fn used(state: &[u8]) -> Vec<Slot> {
    let table = Table::decode(state).expect("a good state");
    table.used().cloned().collect()
}

/// A sound image for a slot.
fn image_for(random: &mut Xorshift, slot: &Slot, index: u32) -> [u8; IMAGE] {
    let useful = if slot.protected {
        protect(&random.bytes())
    } else {
        random.bytes()
    };
    write_image(slot.address, index, DATA, &useful)
}

#[test]
fn good_states_made_by_hand() {
    let mut random = Xorshift::new(111);
    for _ in 0..rounds(1_500) {
        let state = states::good(&mut random);
        let slots = used(&state);
        let image = calls::packet(&mut random, &slots.iter().collect::<Vec<_>>());
        for address in slots
            .first()
            .map(|slot| slot.address)
            .into_iter()
            .chain([500])
        {
            for call in each(address, &image) {
                make(&state, &call);
            }
        }
    }
}

/// Every used slot of such a state with every index, and histories that begin there.
#[test]
fn packets_in_states_made_by_hand() {
    let mut random = Xorshift::new(112);
    for _ in 0..rounds(60) {
        let state = states::good(&mut random);
        for slot in used(&state) {
            for index in 0..4 {
                let image = image_for(&mut random, &slot, index);
                make(&state, &Call::Packet(image.to_vec()));
            }
        }
        let mut both = Both::new(&state, Call::make);
        for _ in 0..60 {
            let call = calls::any(&mut random, both.state());
            both.make(&call);
        }
    }
}

/// Every place a slot can have in the table, alone and among fifteen others.
#[test]
fn every_place() {
    let mut random = Xorshift::new(113);
    for place in 0..SLOTS {
        for others in [false, true] {
            let mut state = states::started();
            for (k, bytes) in (0..).zip(state.chunks_exact_mut(SLOT)) {
                if k == place || others {
                    let slot = states::slot(&mut random, 1 + 68 * k as u32);
                    bytes.copy_from_slice(&slot.encode());
                }
            }
            for slot in used(&state) {
                let image = image_for(&mut random, &slot, slot.awaited.into());
                for call in each(slot.address, &image) {
                    make(&state, &call);
                }
            }
        }
    }
}

#[test]
fn bad_states() {
    let mut random = Xorshift::new(114);
    for _ in 0..rounds(4_000) {
        let state = states::bad(&mut random);
        let address = [0, 1, 17, 1022][random.below(4)];
        let image = write_image(address, 0, DATA, &random.bytes());
        for call in each(address, &image) {
            let number = make(&state, &call);
            let expected = if call == Call::Start { 0 } else { 34 };
            assert_eq!(number, expected, "{call:02x?}");
        }
    }
}

/// A byte in a free slot, in each of its places: the test for good has to look at all of them, in every call.
#[test]
fn a_stray_byte_everywhere() {
    let mut random = Xorshift::new(115);
    let calls = all_but_start(17);
    let mut state = states::started();
    for place in 0..SETTING_AT {
        state[place] = 1 << random.below(8);
        let call = &calls[place % calls.len()];
        assert_eq!(make(&state, call), 34, "{place} {call:02x?}");
        state[place] = 0;
    }
}

/// Every value of every byte of a head.
#[test]
fn every_byte_of_a_head() {
    let mut random = Xorshift::new(116);
    for round in 0..rounds(2) {
        let mut state = states::started();
        let place = [0, SLOTS - 1, 7][round % 3];
        let slot = states::slot(&mut random, 300);
        state[SLOT * place..][..SLOT].copy_from_slice(&slot.encode());
        for at in SLOT * place + 720..SLOT * (place + 1) {
            let kept = state[at];
            for byte in 0..=255 {
                state[at] = byte;
                for call in all_but_start(300) {
                    make(&state, &call);
                }
            }
            state[at] = kept;
        }
    }
}

/// Every value of the last byte: 0 to 3 are good, whatever else is there.
#[test]
fn every_setting() {
    let mut random = Xorshift::new(119);
    for byte in 0..=255 {
        let mut state = if random.chance() {
            states::started()
        } else {
            states::good(&mut random)
        };
        state[SETTING_AT] = byte;
        for address in [17, 1022] {
            for call in all_but_start(address) {
                let refused = make(&state, &call) == 34;
                assert_eq!(refused, byte > 3, "{byte} {call:02x?}");
            }
            assert_eq!(make(&state, &Call::Start), 0);
        }
    }
}

/// Each setting by the call, from each, and what is none.
#[test]
fn settings_from_settings() {
    let mut random = Xorshift::new(120);
    for from in 0..=3 {
        let mut state = states::good(&mut random);
        state[SETTING_AT] = from;
        for most in (0..=300).chain([65_536, 65_539, 1 << 31, u32::MAX]) {
            let number = make(&state, &Call::SetHeaderFlips(most));
            assert_eq!(number, if most <= 3 { 0 } else { 48 }, "{from} {most}");
        }
    }
}

/// Two slots with one address, each pair of places.
#[test]
fn an_address_twice() {
    let mut random = Xorshift::new(117);
    for one in 0..SLOTS {
        for other in 0..SLOTS {
            let mut state = states::started();
            for place in [one, other] {
                let slot = states::slot(&mut random, 300);
                state[SLOT * place..][..SLOT].copy_from_slice(&slot.encode());
            }
            for call in all_but_start(300) {
                let refused = make(&state, &call) == 34;
                assert_eq!(refused, one != other, "{one} {other} {call:02x?}");
            }
        }
    }
}

#[test]
fn wrong_lengths() {
    let mut random = Xorshift::new(118);
    let image = write_image(17, 0, DATA, &[7; 90]).repeat(2);
    let contents = [0; 2 * STATE];
    let states = [
        0, 1, 15, 16, 94, SLOT - 1, SLOT, STATE - SLOT, STATE - 1, STATE, STATE + 1, 2 * STATE,
    ];
    for state in states {
        for length in [0, 1, 2, 93, 94, 95, 187, 188] {
            for call in each(17, &image[..length]) {
                make(&contents[..state], &call);
            }
        }
        let noise: Vec<u8> = (0..state).map(|_| random.below(256) as u8).collect();
        for call in each(17, &image[..IMAGE]) {
            make(&noise, &call);
        }
    }
}
