//! A part of a structure is not taken for the whole: a change that is not sure may have cut a repetition off. From count 2 or 130 on
//! there is "ab", unless a row says otherwise.

use crate::listener::{said, Listener};

/// What is heard of component 7 from a count on: letters, capitals where they are announced, a dot for a frame of no matter, a dash for
/// one that is missed.
fn heard(listener: &mut Listener, row: &str) {
    for letter in row.chars() {
        let next = listener.count.wrapping_add(1);
        match letter {
            '.' => listener.idle_to(next),
            '-' => listener.miss(),
            _ => {
                let flag = u8::from(letter.is_ascii_uppercase());
                listener.hears(flag, 7, &letter.to_ascii_lowercase().to_string(), 0);
            }
        }
    }
}

/// One who begins with the frame of a count, and what is shown of component 7 in the last frame.
fn late(count: u8, row: &str) -> (u8, String) {
    let mut listener = Listener::late(count);
    heard(&mut listener, row);
    listener.now(7)
}

#[test]
fn announced_and_cut_off() {
    for origin in [0, 128] {
        // No frame is missed, and every field came before its change.
        assert_eq!(late(origin, "BAa"), said(46, ""));
        assert_eq!(late(origin + 1, "Aa"), said(46, ""));
        assert_eq!(late(origin, "BAaba"), said(0, "ab"));
    }
}

/// "ac" became "ab", announced before the first frame.
#[test]
fn gathered_over_a_change() {
    for origin in [1, 129] {
        assert_eq!(late(origin, "aa"), said(46, ""));
        assert_eq!(late(origin, "aab"), said(46, ""));
        assert_eq!(late(origin, "aaba"), said(0, "ab"));
    }
}

/// The field of "b" is missed.
#[test]
fn one_frame_missed() {
    for origin in [2, 130_u8] {
        let mut listener = Listener::late(origin);
        listener.idle_to(origin.wrapping_add(122));
        heard(&mut listener, "A-...Aa");
        assert_eq!(listener.count, origin.wrapping_add(129));
        assert_eq!(listener.now(7), said(46, ""));
        heard(&mut listener, "ba");
        assert_eq!(listener.now(7), said(0, "ab"));
    }
}

/// "abc" is known, and announced again as it is, from "b" on.
#[test]
fn announced_unchanged() {
    for origin in [121, 249] {
        let mut listener = Listener::late(origin);
        heard(&mut listener, "abca");
        assert_eq!(listener.now(7), said(0, "abc"));
        heard(&mut listener, "BCA..ca");
        assert_eq!(listener.now(7), said(46, ""));
        heard(&mut listener, "bca");
        assert_eq!(listener.now(7), said(0, "abc"));
    }
}

/// Where all was heard and nothing announced, a repetition goes on over the change.
#[test]
fn over_a_sure_change() {
    for origin in [2, 130_u8] {
        let mut listener = Listener::late(origin);
        listener.idle_to(origin.wrapping_add(127));
        heard(&mut listener, "aba");
        assert_eq!(listener.now(7), said(0, "ab"));
        assert_eq!(late(origin.wrapping_sub(1), "aba"), said(46, ""));
    }
}

/// Up to 127 frames may be missed in a row: the change between is seen.
#[test]
fn missed_in_a_row() {
    for (last, next) in [(1, 129), (129, 1_u8)] {
        let mut listener = Listener::late(last);
        heard(&mut listener, "A");
        assert_eq!(listener.at(7, next), said(46, ""));
        listener.count = next;
        heard(&mut listener, ".");
        assert_eq!(listener.announced(7), (0, 0));
        assert_eq!(listener.now(7), said(46, ""));
        // What was known to be whole is in force.
        let mut listener = Listener::late(last.wrapping_sub(1));
        heard(&mut listener, "AA");
        assert_eq!(listener.at(7, next), said(0, "a"));
        listener.count = next;
        heard(&mut listener, ".");
        assert_eq!(listener.now(7), said(0, "a"));
    }
}

/// About a change, at 1 to 3 and at 129 to 131 alike.
#[test]
fn about_a_change() {
    for origin in [0, 128_u8] {
        let mut listener = Listener::late(origin);
        heard(&mut listener, "AA");
        assert_eq!(listener.announced(7), (1, 1));
        assert_eq!(listener.at(7, origin + 1), said(0, ""));
        assert_eq!(listener.at(7, origin + 2), said(0, "a"));
        assert_eq!(listener.at(7, origin + 3), said(0, "a"));
        heard(&mut listener, ".");
        assert_eq!(listener.now(7), said(0, "a"));
        assert_eq!(listener.marks(), [1, 1]);
    }
}

/// Nothing joins on to a list of which a field may be missing: two fields are enough for one that has one field.
#[test]
fn whatever_comes_begins_anew() {
    for (origin, row) in [(50, "ab-"), (50, "a-"), (50, "abcdefghi-"), (1, "a.")] {
        assert_eq!(late(origin, &format!("{row}zz")), said(0, "z"), "{row}");
    }
}

/// Heard from a configuration's first frame on, all of it: an announcement of "abc" that begins with "b" and is cut off behind "a".
#[test]
fn announced_from_the_middle_on() {
    for origin in [2, 130_u8] {
        let change = origin.wrapping_add(128);
        let mut listener = Listener::late(origin);
        listener.idle_to(origin + 123);
        heard(&mut listener, "BCA");
        assert_eq!(listener.at(7, change), said(46, ""));
        heard(&mut listener, "..");
        assert_eq!(listener.count, change);
        assert_eq!(listener.marks(), [1, 1]);
        assert_eq!(listener.next(7), said(46, ""));
        // What came into force is no part that the next field could make whole.
        for letter in [".", "a", "b", "c"] {
            heard(&mut listener, letter);
            assert_eq!(listener.now(7), said(46, ""));
        }
        heard(&mut listener, "a");
        assert_eq!(listener.now(7), said(0, "abc"));
    }
}

/// A list of which a field may be missing is one that is no field: every byte. It is certain that the component is there if its fields
/// were heard in this configuration, and not if a change that is not sure put it in force.
#[test]
fn bytes() {
    let place = 142 * 7;
    for (origin, row, certain) in [
        (50, "abcdefghi-.", 1),
        (50, "ab-.", 1),
        (127, "ABC..", 0),
        (127, "abc..", 0),
    ] {
        let mut listener = Listener::late(origin);
        heard(&mut listener, row);
        let head = [1, 0, 0, 0, 1, 0, certain];
        assert_eq!(listener.map[place..place + 7], head, "{row}");
        let ones = ((1_u64 << 62) - 1).to_le_bytes();
        assert_eq!(listener.map[place + 7..place + 15], ones, "{row}");
        assert_eq!(listener.map[place + 15..place + 142], [0; 127], "{row}");
    }
    // Announced, and a frame missed.
    let mut listener = Listener::late(50);
    heard(&mut listener, "AB-.");
    let announced = &listener.map[place + 71..place + 86];
    assert_eq!(announced[..7], [1, 0, 0, 0, 1, 0, 1]);
    assert_eq!(announced[7..], ((1_u64 << 62) - 1).to_le_bytes());
}
