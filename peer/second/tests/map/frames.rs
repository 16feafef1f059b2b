//! Frames: when a change comes, how far apart two counts are, and what is missed between them.

use crate::listener::{said, Listener, GONE, LAST};

/// At 2 modulo 128 and at no other count. What show says of the next frame is what comes.
#[test]
fn a_change_comes_at_two() {
    for origin in [0, 128] {
        let mut listener = Listener::new(origin + 126);
        listener.hears(1, 7, "a", 0);
        for (frames, count) in [(3, 127), (2, 0), (1, 1)] {
            listener.idle_to(listener.count.wrapping_add(1));
            assert_eq!(listener.count.wrapping_sub(1) % 128, count);
            assert_eq!(listener.announced(7), (1, frames));
            assert_eq!(listener.now(7), said(0, ""));
            let next = if frames == 1 { "a" } else { "" };
            assert_eq!(listener.next(7), said(0, next));
        }
        listener.hears(1, 8, "b", 0);
        assert_eq!(listener.now(7), said(0, "a"));
        assert_eq!(listener.announced(7), (0, 0));
        // What is announced in the frame of a change waits for the next.
        for frames in (1..=128).rev() {
            assert_eq!(listener.announced(8), (1, frames));
            assert_eq!(listener.now(8), said(0, ""));
            listener.idle_to(listener.count.wrapping_add(1));
        }
        assert_eq!(listener.now(8), said(0, "b"));
    }
}

/// What is announced comes into force with the first frame at or behind a change. Unless the last frame was the last before the change,
/// a field may have been missed. What is shown ahead is shown then.
#[test]
fn a_change_comes_behind_a_gap_too() {
    for (last, count, changes) in [
        (1, 2, true),
        (1, 3, true),
        (1, 0, true),
        (1, 127, true),
        (1, 129, true),
        (2, 3, false),
        (2, 1, false),
        (2, 130, true),
        (129, 1, true),
        (129, 2, true),
        (129, 130, true),
        (130, 131, false),
        (130, 2, true),
        (3, 2, true),
        (3, 1, false),
        (3, 130, true),
        (127, 1, false),
        (127, 2, true),
        (255, 1, false),
        (255, 130, true),
        (77, 76, true),
        (77, 1, false),
    ] {
        let mut listener = Listener::new(last);
        listener.hears(1, 7, "a", 0);
        let before = listener.at(7, count);
        listener.count = count;
        listener.hears(0, 0x81, "z", 0);
        let now = match (changes, last % 128) {
            (false, _) => said(0, ""),
            (true, 1) => said(0, "a"),
            (true, _) => said(46, ""),
        };
        assert_eq!(listener.now(7), now, "{last} {count}");
        assert_eq!(before, now, "{last} {count}");
    }
}

/// Distances are modulo 128, so 127 and 255 are both followed by 0 and by 128; but a count is not 0 frames from another.
#[test]
fn the_distance_across_the_wrap() {
    for (last, count, unbroken) in [
        (127, 0, 1),
        (127, 128, 1),
        (255, 0, 1),
        (255, 128, 1),
        (126, 0, 0),
        (254, 0, 0),
        (127, 1, 0),
        (255, 1, 0),
        (0, 127, 0),
        (0, 255, 0),
        (0, 128, 0),
        (128, 0, 0),
        (0, 0, 1),
        (0, 129, 1),
    ] {
        let mut listener = Listener::new(last);
        listener.hears(0, 7, "a", 0);
        assert_eq!(listener.marks(), [1, 1]);
        listener.count = count;
        listener.hears(0, 7, "b", 0);
        assert_eq!(listener.marks(), [1, unbroken], "{last} {count}");
    }
}

/// The first frame changes nothing, whatever its count is. What came before it is not known, and need not be where a configuration
/// begins with it.
#[test]
fn the_first_frame() {
    for count in 0..=255 {
        let mut listener = Listener::late(count);
        assert_eq!(listener.marks(), [0, 0]);
        assert_eq!(listener.at(7, count), said(0, ""));
        listener.hears(1, 7, "a", 0);
        assert_eq!(listener.marks(), [1, u8::from(count % 128 == 2)]);
        assert_eq!(listener.map[LAST], count);
        assert_eq!(listener.now(7), said(0, ""));
        assert_eq!(listener.announced(7).0, 1);
    }
}

/// A field is sent five times in its frame. The second is not a repetition of the list.
#[test]
fn five_identical_blocks_count_once() {
    for flag in 0..2 {
        let mut listener = Listener::new(20);
        listener.hears(flag, 7, "a", 0);
        let once = listener.map.clone();
        for _ in 0..4 {
            listener.count = 20;
            listener.hears(flag, 7, "a", 0);
            assert!(listener.map == once);
        }
        // Nor does another field of this frame count.
        listener.count = 20;
        listener.hears(flag, 7, "b", 0);
        listener.count = 20;
        assert_eq!(listener.hear(flag, 7, GONE, 0), 0);
        assert!(listener.map == once);
        // The frame half the counts away is another one.
        listener.count = 148;
        listener.hears(flag, 7, "b", 0);
        assert!(listener.map != once);
        assert_eq!(listener.marks(), [1, 0]);
    }
}

/// The mark is set by the first frame of a configuration, whatever was missed before, and cleared by a missed frame.
#[test]
fn the_mark_of_frames_without_a_gap() {
    let mut listener = Listener::new(100);
    listener.idle_to(102);
    listener.count = 103;
    listener.idle_to(130);
    assert_eq!(listener.marks(), [1, 0]);
    listener.idle_to(131);
    assert_eq!(listener.marks(), [1, 1]);
    listener.idle_to(1);
    listener.count = 2;
    listener.idle_to(3);
    assert_eq!(listener.marks(), [1, 1]);
    listener.miss();
    listener.idle_to(5);
    assert_eq!(listener.marks(), [1, 0]);
}

/// A frame missed anywhere before the change leaves a list open of which not all is known, and no other. One missed behind it does not.
#[test]
fn missed_frames_leave_it_unfinished() {
    for missed in [None, Some(117), Some(120), Some(129), Some(130)] {
        let mut listener = Listener::new(110);
        listener.hears(1, 7, "ab", 0);
        listener.hears(1, 8, "aba", 0);
        listener.hears(1, 9, "a", 0);
        assert_eq!(listener.hear(1, 9, GONE, 0), 0);
        if let Some(count) = missed {
            listener.idle_to(count);
            listener.count = count + 1;
        }
        listener.idle_to(132);
        let before = missed.is_some_and(|count| count < 130);
        let open = match before {
            true => said(46, ""),
            false => said(0, "ab"),
        };
        assert_eq!(listener.now(7), open, "{missed:?}");
        assert_eq!(listener.now(8), said(0, "ab"), "{missed:?}");
        assert_eq!(listener.now(9), said(0, ""), "{missed:?}");
        // A deletion may have been followed by a field that was missed.
        let unknown = u8::from(before);
        assert_eq!(listener.unknown(9), unknown, "{missed:?}");
    }
}

/// The frame just before a configuration is missed, and every one of the configuration is heard: what is announced in it is known to be
/// all, as it is to one who was switched on with its first frame.
#[test]
fn missed_just_before_a_configuration() {
    for switched_on_at in [0, 2] {
        let mut listener = Listener::late(switched_on_at);
        if switched_on_at == 0 {
            listener.idle_to(1);
            listener.miss();
        }
        listener.idle_to(20);
        listener.hears(1, 7, "ab", 0);
        listener.idle_to(130);
        assert_eq!(listener.next(7), said(0, "ab"));
        listener.idle_to(131);
        assert_eq!(listener.now(7), said(0, "ab"));
    }
}

/// Every frame up to a change is heard, and some behind it are missed: what was shown for the time behind the change still is. A list that
/// was gathered over the change is begun anew.
#[test]
fn missed_just_behind_a_change() {
    for next in [131, 132, 200, 1] {
        let mut listener = Listener::late(2);
        listener.hears(1, 7, "ab", 0);
        listener.hears(0, 8, "ab", 0);
        listener.idle_to(130);
        for count in [130, 131] {
            assert_eq!(listener.at(7, count), said(0, "ab"));
        }
        listener.count = next;
        listener.hears(0, 8, "a", 0);
        assert_eq!(listener.now(7), said(0, "ab"), "{next}");
        assert_eq!(listener.now(8), said(46, ""), "{next}");
    }
}

/// A list that a change left open is closed by the fields that come without a flag.
#[test]
fn it_is_finished_later() {
    let mut listener = Listener::new(0);
    listener.hears(1, 7, "a", 0);
    listener.count = 2;
    listener.idle_to(3);
    assert_eq!(listener.now(7), said(46, ""));
    for (letter, expected) in [
        ("a", said(46, "")),
        ("b", said(46, "")),
        ("a", said(0, "ab")),
    ] {
        listener.hears(0, 7, letter, 0);
        assert_eq!(listener.now(7), expected);
    }
}

/// One who begins to listen while a list is announced does not know what came before: the part that was heard is not shown as the
/// whole, until a repetition shows it.
#[test]
fn a_late_listener_takes_no_part_for_the_whole() {
    // Announced is "abc". It was begun before the first frame that is heard.
    let mut listener = Listener::late(0);
    listener.hears(1, 7, "bc", 0);
    assert_eq!(listener.marks(), [1, 0]);
    assert_eq!(listener.next(7), said(46, ""));
    listener.idle_to(3);
    assert_eq!(listener.now(7), said(46, ""));
    listener.hears(0, 7, "abca", 0);
    assert_eq!(listener.now(7), said(0, "abc"));
    // One who heard its first field again knows it.
    let mut listener = Listener::late(120);
    listener.hears(1, 7, "bcabca", 0);
    listener.idle_to(131);
    assert_eq!(listener.now(7), said(0, "abc"));
}

/// One who begins with a configuration's first frame has missed nothing of what is announced in it, and needs no repetition; one who
/// begins a frame later does.
#[test]
fn from_the_first_frame_on_each_field_once_is_enough() {
    for first in [2, 130_u8] {
        for late in 0..3 {
            let change = first.wrapping_add(128);
            let mut listener = Listener::late(first + late);
            listener.hears(1, 7, "ab", 0);
            listener.idle_to(change);
            let known = if late == 0 {
                said(0, "ab")
            } else {
                said(46, "")
            };
            assert_eq!(listener.next(7), known, "{first} {late}");
            listener.idle_to(change.wrapping_add(1));
            assert_eq!(listener.now(7), known, "{first} {late}");
        }
    }
}

/// A field lost in the middle of a repetition is missed: the list without it is not taken for the whole, whether LINKS tells the
/// repetitions apart or not. The next repetition shows it.
#[test]
fn a_field_lost_in_a_repetition_is_missed() {
    for (flag, links) in [(0, 0), (0, 1), (1, 0), (1, 1)] {
        let mut listener = Listener::new(100);
        listener.hears(flag, 7, "a", 0);
        // Here was "b".
        listener.miss();
        listener.hears(flag, 7, "c", 0);
        let behind = |listener: &Listener| {
            if flag == 0 {
                listener.now(7)
            } else {
                listener.at(7, 130)
            }
        };
        for (letters, links, expected) in [
            ("", 0, 46),
            ("a", links, 46),
            ("bc", links, 46),
            ("a", 0, 0),
        ] {
            listener.hears(flag, 7, letters, links);
            let letters = if expected == 0 { "abc" } else { "" };
            assert_eq!(behind(&listener), said(expected, letters), "{flag} {links}");
        }
        assert_eq!(listener.marks(), [1, 0]);
    }
}

/// The same of one field alone, and of nine; and of a list that is whole nothing is lost.
#[test]
fn a_missed_frame_leaves_what_is_whole() {
    for (letters, number, shown) in [("a", 46, ""), ("abcdefghi", 46, ""), ("aba", 0, "ab")] {
        let mut listener = Listener::new(20);
        listener.hears(0, 7, letters, 0);
        listener.miss();
        listener.idle_to(listener.count + 1);
        assert_eq!(listener.now(7), said(number, shown), "{letters}");
        // A list that was open is begun anew with the next field.
        listener.hears(0, 7, "aba", 1);
        assert_eq!(listener.now(7), said(0, "ab"), "{letters}");
    }
}
