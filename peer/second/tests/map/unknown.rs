//! Nothing heard yet is not "no such component": when absence is held to be known, and what was heard is shown before it is all.

use crate::listener::{field, fields, said, Listener, GONE};
use second::map::{known, list, show, take};

/// After the start nothing is known of anything, the panning vector's number too; nor is it while frames come that say nothing of it.
#[test]
fn after_the_start() {
    let mut listener = Listener::late(77);
    for frames in 0..=300_u16 {
        let (row, unbroken) = (frames.min(255) as u8, u8::from(frames > 53));
        let now = listener.count.wrapping_sub(1);
        assert_eq!(known(&listener.map, now), (0, row, unbroken, 0));
        for id in [0, 7, 0x81, 255] {
            assert_eq!(listener.now(id), said(0, ""));
            assert_eq!(listener.unknown(id), u8::from(frames < 255), "{frames}");
        }
        listener.idle_to(listener.count.wrapping_add(1));
    }
}

/// A missed frame takes it back, and 255 frames have to come again; one that comes again counts once.
#[test]
fn after_a_missed_frame() {
    let mut listener = Listener::late(10);
    for _ in 0..300 {
        listener.idle_to(listener.count.wrapping_add(1));
    }
    assert_eq!(listener.unknown(7), 0);
    listener.miss();
    for frames in 1..=255_u8 {
        listener.idle_to(listener.count.wrapping_add(1));
        let again = field(listener.count.wrapping_sub(1), 0, 7, fields("a")[0], 0);
        assert_eq!(take(&mut listener.map, &again), 0);
        assert_eq!(known(&listener.map, 0).1, frames);
        assert_eq!(listener.unknown(7), u8::from(frames < 255));
    }
}

/// All ones without a flag say that there is none, up to the next change: then something may have been announced that was not heard.
#[test]
fn all_ones_in_this_configuration() {
    for missed in [false, true] {
        let mut listener = Listener::late(20);
        assert_eq!(listener.hear(0, 7, GONE, 0), 0);
        assert_eq!((listener.unknown(7), listener.unknown(8)), (0, 1));
        // For the time behind the change, too, as far as is known.
        assert_eq!(listener.unknown_at(7, 130), 0);
        if missed {
            listener.miss();
        }
        listener.idle_to(130);
        assert_eq!((listener.unknown(7), listener.unknown(8)), (0, 1));
        listener.idle_to(131);
        assert_eq!((listener.unknown(7), listener.unknown(8)), (1, 1));
    }
}

/// Announced all ones: known behind the change if all was heard up to it, and only in that configuration.
#[test]
fn all_ones_announced() {
    for (origin, missed, unknown) in [
        (2, None, 0),
        (3, None, 1),
        (2, Some(60), 1),
        (2, Some(129), 1),
    ] {
        let mut listener = Listener::late(origin);
        listener.hears(0, 7, "aa", 0);
        assert_eq!(listener.hear(1, 7, GONE, 0), 0);
        // Before the last frame a field may come that makes it anew.
        assert_eq!(listener.unknown_at(7, 130), 1);
        assert_eq!((listener.now(7), listener.unknown(7)), (said(0, "a"), 0));
        if let Some(count) = missed {
            listener.idle_to(count);
            listener.miss();
        }
        listener.idle_to(130);
        assert_eq!(listener.at(7, 130), said(0, ""));
        assert_eq!(listener.unknown_at(7, 130), unknown, "{origin} {missed:?}");
        listener.idle_to(131);
        assert_eq!(listener.now(7), said(0, ""));
        assert_eq!(listener.unknown(7), unknown, "{origin} {missed:?}");
        // It stays so up to the next change. With count 1 comes the 255th frame in a row, or the 256th, where none is missed.
        listener.idle_to(1);
        assert_eq!(listener.unknown(7), unknown);
        listener.idle_to(3);
        assert_eq!(listener.unknown(7), u8::from(missed.is_some()));
    }
}

/// What has fields is not unknown, whole or not, and a component that is made anew behind all ones is there.
#[test]
fn with_fields() {
    let mut listener = Listener::late(20);
    listener.hears(0, 7, "ab", 0);
    assert_eq!((listener.now(7), listener.unknown(7)), (said(46, ""), 0));
    listener.hears(0, 7, "a", 0);
    assert_eq!((listener.now(7), listener.unknown(7)), (said(0, "ab"), 0));
    listener.miss();
    listener.idle_to(131);
    assert_eq!((listener.now(7), listener.unknown(7)), (said(0, "ab"), 0));
    assert_eq!(listener.hear(1, 7, GONE, 0), 0);
    listener.hears(1, 7, "c", 0);
    assert_eq!(
        (listener.at(7, 2), listener.unknown_at(7, 2)),
        (said(46, ""), 0)
    );
    listener.idle_to(3);
    assert_eq!((listener.now(7), listener.unknown(7)), (said(0, "c"), 0));
}

/// Every mark of a list: 0 none, 1 whole, 2 unfinished, 3 unknown.
#[test]
fn marks() {
    let mut listener = Listener::late(20);
    assert_eq!(listener.hear(0, 4, GONE, 0), 0);
    listener.hears(0, 5, "aa", 0);
    listener.hears(0, 6, "a", 0);
    let mut out = [0xA5; 256];
    assert_eq!(list(&listener.map, 23, &mut out), 0);
    assert_eq!(out[3..8], [3, 0, 1, 2, 3]);
    assert_eq!(listener.components(), 2);
}

/// A move is seen when it is announced: what was heard of it, from the first field on, marked as not all.
#[test]
fn what_was_heard_is_shown_ahead() {
    let mut listener = Listener::new(100);
    listener.hears(0, 7, "aba", 0);
    assert_eq!(listener.heard(7, 102), ("ab".into(), 1));
    assert_eq!(listener.heard(7, 130), ("ab".into(), 1));
    for (letter, heard) in [("c", "c"), ("d", "cd"), ("e", "cde")] {
        listener.hears(1, 7, letter, 0);
        assert_eq!(listener.heard(7, 130), (heard.into(), 0));
        assert_eq!(listener.at(7, 130), said(46, ""));
        assert_eq!(listener.heard(7, 129), ("ab".into(), 1));
    }
    listener.idle_to(130);
    // Behind the last frame, it is all.
    assert_eq!(listener.heard(7, 130), ("cde".into(), 1));
    listener.idle_to(131);
    assert_eq!(listener.heard(7, 130), ("cde".into(), 1));
    assert_eq!(listener.announced(7), (0, 0));
}

/// Of a list that is being gathered what came, of a spoiled one nothing, and of more than eight the first eight.
#[test]
fn what_was_heard_of_a_part() {
    let mut listener = Listener::late(20);
    listener.hears(0, 7, "bc", 0);
    assert_eq!(listener.heard(7, 21), ("bc".into(), 0));
    listener.miss();
    listener.idle_to(24);
    assert_eq!(listener.now(7), said(46, ""));
    assert_eq!(listener.heard(7, 23), ("".into(), 0));
    listener.hears(0, 7, "abcdefghi", 0);
    assert_eq!(listener.heard(7, 32), ("abcdefgh".into(), 0));
    assert_eq!(listener.hear(1, 7, GONE, 0), 0);
    assert_eq!(listener.heard(7, 130), ("".into(), 0));
    assert_eq!(listener.heard(8, 33), ("".into(), 0));
    // A place of 0 where there is nothing.
    assert_eq!(second::map::heard(&listener.map, 7, 130), (0, 0, 0, 0));
    assert_eq!(show(&listener.map, 7, 130), (0, 0, 0, 1, 97, 1));
}
