//! The type for programs in Rust: it says what the calls under it say.

use against::feed::{
    read_header, read_header_plain, write_group, Feed, Header, Protection, Refusal, Taken, Worth,
};
use second::group::Detailed;
use second::image::write_image;
use second::samples::calls::{self, Call};
use second::samples::{difference, flip, rounds, states, word_at};
use second::table::STATE;
use second::types::{CONTROL, RESERVED};
use second::xorshift::Xorshift;

const NOTICE: &[u8] = b"no platform known";

#[test]
fn a_group_from_its_writing_to_its_end() {
    let message: Vec<u8> = (0..180).collect();
    let images = write_group(17, Protection::Protected, &message).expect("written");
    let mut feed = Feed::new();
    assert_eq!(feed.ask(17), Err(Refusal::NotFollowed));
    assert_eq!(feed.follow(17, Protection::Protected, 2), Ok(()));
    assert_eq!(feed.ask(17), Ok((Worth::Nothing, &[][..])));
    let taken: Vec<_> = images.chunks(94).map(|image| feed.packet(image)).collect();
    let [started, held, whole] = [Taken::Started, Taken::Held, Taken::Whole].map(Ok);
    assert_eq!(taken, [started, held, held, whole]);
    assert_eq!(feed.ask(17), Ok((Worth::Fresh, &message[..])));
    assert_eq!(
        feed.board_text(17, NOTICE),
        (Ok(Worth::Fresh), &message[..])
    );
    let out_of_step = Refusal::OutOfStep {
        awaited: 0,
        came: 1,
    };
    assert_eq!(feed.packet(&images[94..188]), Err(out_of_step));
    assert_eq!(feed.ask(17), Ok((Worth::Doubtful, &message[..])));
    feed.subframe_end();
    assert_eq!(feed.board_text(17, NOTICE), (Ok(Worth::Doubtful), NOTICE));
    feed.subframe_end();
    assert_eq!(feed.ask(17), Ok((Worth::Stale, &message[..])));
    assert_eq!(feed.leave(17), Ok(()));
    assert_eq!(
        feed.board_text(17, NOTICE),
        (Err(Refusal::NotFollowed), NOTICE)
    );
    assert_eq!(feed.bytes(), Feed::new().bytes());
}

/// Address 17, index 0, with bits 0 and 5 flipped, by both readers.
#[test]
fn a_bare_header_by_either_reader() {
    let read = Header {
        address: 17,
        index: 0,
        flips: 2,
    };
    for reader in [read_header, read_header_plain] {
        assert_eq!(reader(0x75F030, 2), Ok(read));
        assert_eq!(reader(0x75F030, 1), Err(Refusal::HeaderBeyond));
        assert_eq!(reader(0x75F030, 4), Err(Refusal::Setting));
        assert_eq!(reader(0x800000, 4), Err(Refusal::TooLarge));
    }
}

/// "A header refused so belongs to no slot and changes nothing."
#[test]
fn headers_are_held_to_the_setting() {
    let images = write_group(17, Protection::Plain, &[7; 360]).expect("written");
    let mut hurt = images[94..188].to_vec();
    for bit in [3, 11, 22] {
        flip(&mut hurt, bit);
    }
    let mut feed = Feed::new();
    assert_eq!(feed.follow(17, Protection::Plain, 2), Ok(()));
    assert_eq!(feed.packet(&images[..94]), Ok(Taken::Started));
    assert_eq!(feed.set_header_flips(2), Ok(()));
    assert_eq!(feed.packet(&hurt), Err(Refusal::HeaderBeyond));
    // A setting that is none leaves the one that is; a state that is kept keeps its own.
    assert_eq!(feed.set_header_flips(4), Err(Refusal::Setting));
    let mut kept = Feed::from_bytes(feed.bytes()).expect("a good state");
    assert_eq!(kept.packet(&hurt), Err(Refusal::HeaderBeyond));
    assert_eq!(kept.set_header_flips(3), Ok(()));
    assert_eq!(kept.packet(&hurt), Ok(Taken::Held));
    assert_eq!(
        Feed::new().set_header_flips(u32::MAX),
        Err(Refusal::Setting)
    );
}

/// An installer sees which packet it was: a control packet, of which nothing comes; type C7; one out of step; a word.
#[test]
fn refusals_say_what_was_wrong() {
    let mut images = write_group(17, Protection::Protected, &[7; 180]).expect("written");
    for bit in [0, 9, 18, 23] {
        flip(&mut images[282..], word_at(11).start + bit);
    }
    let part = |index: usize| &images[94 * index..][..94];
    let mut feed = Feed::new();
    assert_eq!(feed.follow(17, Protection::Protected, 2), Ok(()));
    assert_eq!(feed.packet(part(0)), Ok(Taken::Started));
    let control = write_image(17, 3, CONTROL, &[7; 90]);
    assert_eq!(feed.packet(&control), Err(Refusal::ControlPacket));
    assert_eq!(feed.packet(part(1)), Ok(Taken::Held));
    let unreadable = Refusal::WordUnreadable { place: 11 };
    assert_eq!(feed.packet(part(3)), Err(unreadable));
    assert_eq!(feed.packet(part(0)), Ok(Taken::Started));
    let out_of_step = Refusal::OutOfStep {
        awaited: 1,
        came: 2,
    };
    assert_eq!(feed.packet(part(2)), Err(out_of_step));
    let reserved = write_image(17, 0, RESERVED, &[7; 90]);
    assert_eq!(feed.packet(&reserved), Err(Refusal::TypeReserved));
}

#[test]
fn refusals_have_reasons() {
    let out_of_step = Refusal::OutOfStep {
        awaited: 2,
        came: 3,
    };
    let reasons = [
        (Refusal::ControlPacket, "a control packet (29)"),
        (Refusal::TypeReserved, "the type is reserved (C7) (47)"),
        (
            Refusal::WordUnreadable { place: 29 },
            "word 29 cannot be read (31)",
        ),
        (out_of_step, "out of step: 2 was awaited, 3 came (32)"),
        (Refusal::Other(50), "a number that no call gives (50)"),
    ];
    for (refusal, reason) in reasons {
        assert_eq!(refusal.to_string(), reason);
    }
    let refused = write_group(0, Protection::Plain, &[0; 360]);
    assert_eq!(refused, Err(Refusal::Address));
    assert_eq!(
        Refusal::Address.to_string(),
        "the address is not 1 to 1,022 (22)"
    );
    assert_eq!(Refusal::Setting.to_string(), "the setting is above 3 (48)");
    assert_eq!(
        Refusal::HeaderBeyond.to_string(),
        "the header is beyond the setting (49)"
    );
    assert_eq!(
        write_group(1, Protection::Plain, &[0; 180]),
        Err(Refusal::Length)
    );
}

#[test]
fn only_good_states_are_taken_up_again() {
    let mut random = Xorshift::new(141);
    for _ in 0..rounds(200) {
        let good: [u8; STATE] = states::good(&mut random).try_into().expect("its length");
        let feed = Feed::from_bytes(&good).expect("a good state");
        assert_eq!(difference(feed.bytes(), &good), None);
        let bad: [u8; STATE] = states::bad(&mut random).try_into().expect("its length");
        assert_eq!(Feed::from_bytes(&bad).err(), Some(Refusal::NotGood));
    }
}

/// A history through the type, as the second implementation makes it.
#[test]
fn a_history() {
    let mut random = Xorshift::new(142);
    let mut feed = Feed::new();
    let mut state = states::started();
    for _ in 0..rounds(5_000) {
        let call = calls::any(&mut random, &state);
        // The type has no other protections.
        if matches!(call, Call::Follow(_, 2.., _)) {
            continue;
        }
        let answer = call.make(&mut state);
        let expected = answer.packet.unwrap_or(answer.number.into());
        assert_eq!(make(&mut feed, &call), expected, "{call:02x?}");
        assert_eq!(difference(feed.bytes(), &state), None, "{call:02x?}");
    }
}

/// The number of a call that is made through the type, and what a packet's carries.
fn make(feed: &mut Feed, call: &Call) -> Detailed {
    let done = |result: Result<(), Refusal>| result.map_or_else(|refusal| refusal.number(), |()| 0);
    let number = match call {
        Call::Start => {
            *feed = Feed::default();
            0
        }
        &Call::Follow(address, 0, limit) => done(feed.follow(address, Protection::Plain, limit)),
        &Call::Follow(address, _, limit) => {
            done(feed.follow(address, Protection::Protected, limit))
        }
        &Call::Leave(address) => done(feed.leave(address)),
        Call::Packet(image) => return told(feed.packet(image)),
        Call::SubframeEnd => {
            feed.subframe_end();
            0
        }
        &Call::SetHeaderFlips(most) => done(feed.set_header_flips(most)),
        &Call::Ask(address) => worth(feed.ask(address).map(|(worth, _)| worth)),
        Call::BoardText(address, notice) => worth(feed.board_text(*address, notice).0),
    };
    number.into()
}

fn told(result: Result<Taken, Refusal>) -> Detailed {
    let (number, awaited_or_place, came) = match result {
        Ok(Taken::Started) => (1, 0, 0),
        Ok(Taken::Held) => (2, 0, 0),
        Ok(Taken::Whole) => (3, 0, 0),
        Err(Refusal::WordUnreadable { place }) => (31, place, 0),
        Err(Refusal::OutOfStep { awaited, came }) => (32, awaited, came),
        Err(refusal) => (refusal.number(), 0, 0),
    };
    Detailed {
        number,
        awaited_or_place,
        came,
    }
}

fn worth(result: Result<Worth, Refusal>) -> u8 {
    match result {
        Ok(Worth::Nothing) => 4,
        Ok(Worth::Fresh) => 5,
        Ok(Worth::Doubtful) => 6,
        Ok(Worth::Stale) => 7,
        Err(refusal) => refusal.number(),
    }
}
