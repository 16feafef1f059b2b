//! Lists of fields: how they go on, when they are whole, and what begins them anew.

use crate::listener::{fields, said, Listener, GONE};

/// What a component's fields lead to: letters with LINKS 0, capitals with LINKS 1, a dot for a deletion.
fn heard(flag: u8, row: &str) -> Listener {
    let mut listener = Listener::new(10);
    for letter in row.chars() {
        let links = u8::from(letter.is_ascii_uppercase());
        let small = letter.to_ascii_lowercase().to_string();
        match letter {
            '.' => assert_eq!(listener.hear(flag, 7, GONE, 0), 0),
            _ => listener.hears(flag, 7, &small, links),
        }
    }
    listener
}

const ROWS: [(&str, u8, &str); 33] = [
    ("", 0, ""),
    ("a", 46, ""),
    ("aa", 0, "a"),
    ("aA", 0, "a"),
    ("abc", 46, ""),
    ("abca", 0, "abc"),
    ("abcA", 0, "abc"),
    // One begins in the middle.
    ("bca", 46, ""),
    ("bcabc", 46, ""),
    ("bcabca", 0, "abc"),
    // LINKS is another inside of a list: what came before is not of this repetition.
    ("aB", 46, ""),
    ("aBa", 46, ""),
    ("aBB", 0, "b"),
    ("aBCB", 0, "bc"),
    // Once it is whole, its fields come in turn, with any LINKS.
    ("abcaBcAbC", 0, "abc"),
    ("aaAa", 0, "a"),
    // One that is not next begins it anew: it left one out, it came too soon, or it went back.
    ("abcac", 46, ""),
    ("abcaca", 46, ""),
    ("abcacac", 46, ""),
    ("abcacaca", 0, "ac"),
    ("abcaa", 46, ""),
    ("abcaaa", 0, "a"),
    ("abcaba", 46, ""),
    ("abcabaa", 0, "a"),
    ("abcad", 46, ""),
    ("abcadabcda", 0, "abcd"),
    // A list that was whole is forgotten with the first field that it has not.
    ("aad", 46, ""),
    ("aada", 46, ""),
    ("aadaa", 0, "a"),
    (".", 0, ""),
    ("abca.", 0, ""),
    ("ab.ab", 46, ""),
    ("ab.aba", 0, "ab"),
];

#[test]
fn in_force() {
    for (row, number, letters) in ROWS {
        assert_eq!(heard(0, row).now(7), said(number, letters), "{row}");
    }
}

/// The same is announced, and shown for frames behind the change while others can still come.
#[test]
fn announced() {
    for (row, number, letters) in ROWS {
        let listener = heard(1, row);
        assert_eq!(listener.at(7, 2), said(number, letters), "{row}");
        assert_eq!(listener.at(7, 1), said(0, ""), "{row}");
        let last = listener.count.wrapping_sub(1);
        let there = u8::from(!row.is_empty());
        assert_eq!(
            listener.announced(7),
            (there, there * 130u8.wrapping_sub(last))
        );
    }
}

/// The order is that of (FLN1, FCP): the last numbers and the second lines do not count.
#[test]
fn the_order_of_fields() {
    let rows = [
        ([5, 10, 20, 30, 40, 50], [5, 10, 20, 30, 41, 50], true),
        ([5, 10, 20, 30, 40, 50], [6, 10, 20, 30, 0, 50], true),
        ([5, 10, 20, 30, 40, 50], [5, 11, 21, 31, 40, 51], false),
        ([5, 10, 20, 30, 40, 50], [4, 10, 20, 30, 1040, 1050], false),
        (
            [0, 10, 20, 30, 1024, 1030],
            [0, 10, 20, 30, 1025, 1030],
            true,
        ),
        ([511, 600, 20, 30, 40, 50], [512, 600, 20, 30, 40, 50], true),
    ];
    for (one, other, rises) in rows {
        let mut listener = Listener::new(10);
        for numbers in [one, other] {
            assert_eq!(listener.hear(0, 7, numbers, 0), 0);
        }
        let fields = listener.map[142 * 7];
        assert_eq!(fields, if rises { 2 } else { 1 }, "{one:?} {other:?}");
    }
}

#[test]
fn eight_fields_are_whole() {
    let listener = heard(0, "abcdefgha");
    assert_eq!(listener.now(7), said(0, "abcdefgh"));
    let mut listener = heard(1, "abcdefgh");
    listener.idle_to(131);
    assert_eq!(listener.now(7), said(0, "abcdefgh"));
}

/// A ninth has no room. It is remembered that there was one, and no repetition and no change makes the list whole.
#[test]
fn nine_fields_stay_unfinished() {
    for row in [
        "abcdefghi",
        "abcdefghij",
        "abcdefghia",
        "abcdefghiabcdefghia",
    ] {
        assert_eq!(heard(0, row).now(7), said(46, ""), "{row}");
    }
    let mut listener = heard(1, "abcdefghi");
    assert_eq!(listener.map[142 * 7 + 71], 9);
    listener.idle_to(130);
    assert_eq!(listener.next(7), said(46, ""));
    // What comes into force and is not whole is begun anew.
    listener.idle_to(131);
    assert_eq!(listener.now(7), said(46, ""));
    assert_eq!(listener.map[142 * 7], 1);
    assert_eq!(listener.heard(7, 130), ("".into(), 0));
    // The eighth that is stored counts for the order, not the ninth.
    let mut listener = heard(0, "abcdefghj");
    listener.hears(0, 7, "i", 0);
    assert_eq!(listener.map[142 * 7], 9);
    listener.hears(0, 7, "h", 0);
    assert_eq!(listener.map[142 * 7], 1);
}

/// Nine announced fields go into a second repetition before a sure change: the part of it that came is not the structure, whether it
/// has room or not.
#[test]
fn nine_announced_fields_twice() {
    for part in ["a", "ab", "abcdefgh", "abcdefghi", "A", "ABCDEFGH"] {
        let mut listener = heard(1, &format!("abcdefghi{part}"));
        let (small, eight) = (part.to_ascii_lowercase(), part.len().min(8));
        assert_eq!(listener.heard(7, 2), (small[..eight].into(), 0));
        listener.idle_to(130);
        assert_eq!(listener.marks(), [1, 1]);
        assert_eq!(listener.next(7), said(46, ""), "{part}");
        listener.idle_to(131);
        assert_eq!(listener.now(7), said(46, ""), "{part}");
        // Nor do the fields without the flag make it so.
        for letter in "abcdefghia".chars() {
            listener.hears(0, 7, &letter.to_string(), 0);
            assert_eq!(listener.now(7), said(46, ""), "{part}");
        }
    }
}

/// An announcement that begins in the middle, with a listener who has heard everything: what came before its first field is not known to
/// be of another structure, so its last repetition is not the whole. One that comes round is.
#[test]
fn announced_from_the_middle_on() {
    for (row, number, letters) in [
        ("bca", 46, ""),
        ("bcab", 46, ""),
        ("bcabc", 46, ""),
        ("bcA", 46, ""),
        ("bcABC", 46, ""),
        ("bcabca", 0, "abc"),
        ("bcABCa", 0, "abc"),
        // Behind all ones it begins.
        ("bc.a", 0, "a"),
        (".abc", 0, "abc"),
        ("abc", 0, "abc"),
    ] {
        let mut listener = heard(1, row);
        listener.idle_to(130);
        assert_eq!(listener.marks(), [1, 1]);
        assert_eq!(listener.next(7), said(number, letters), "{row}");
        listener.idle_to(131);
        assert_eq!(listener.now(7), said(number, letters), "{row}");
    }
}

/// "abc" is whole and known. Then a field or two of it went, and neither the announcement nor the change was heard. It heals with the
/// third beginning of a repetition, and no part of either structure is shown on the way.
#[test]
fn a_list_that_shrank_heals() {
    for left in ["ac", "bc", "ab", "a", "b", "c"] {
        let mut listener = heard(0, "abca");
        listener.count = 140;
        let mut beginnings = 0;
        for letter in left.repeat(4).chars() {
            listener.hears(0, 7, &letter.to_string(), 0);
            beginnings += usize::from(left.starts_with(letter));
            let (number, shown) = listener.now(7);
            let healed = (number, shown.as_str()) == (0, left);
            let open = number == 46 || (number, shown.as_str()) == (0, "abc");
            assert!(healed || beginnings < 3 && open, "{left} {shown}");
        }
    }
    // Row by row.
    let mut listener = heard(0, "abca");
    listener.count = 140;
    for (letter, expected) in [
        ("a", said(0, "abc")),
        ("c", said(46, "")),
        ("a", said(46, "")),
        ("c", said(46, "")),
        ("a", said(0, "ac")),
        ("c", said(0, "ac")),
    ] {
        listener.hears(0, 7, letter, 0);
        assert_eq!(listener.now(7), expected);
    }
}

/// Every byte of a list that goes on, is whole, and begins anew.
#[test]
fn bytes() {
    let place = 142 * 7;
    let mut listener = heard(0, "AB");
    assert_eq!(listener.map[place..place + 7], [2, 0, 1, 0, 0, 0, 1]);
    listener.hears(0, 7, "a", 0);
    assert_eq!(listener.map[place..place + 7], [2, 1, 0, 0, 0, 1, 1]);
    let tdms = second::map::pack(fields("b")[0]).1;
    assert_eq!(listener.map[place + 15..place + 23], tdms.to_le_bytes());
    // What a whole list knows already leaves every byte but the place of the last, LINKS too.
    listener.hears(0, 7, "b", 1);
    assert_eq!(listener.map[place..place + 7], [2, 1, 0, 0, 0, 2, 1]);
    listener.hears(0, 7, "c", 1);
    assert_eq!(listener.map[place..place + 7], [1, 0, 1, 0, 1, 0, 1]);
    assert_eq!(listener.map[place + 15..place + 142], [0; 127]);
    assert_eq!(listener.hear(1, 7, GONE, 1), 0);
    assert_eq!(listener.map[place + 71..place + 78], [0, 0, 0, 1, 0, 0, 1]);
    // Behind a sure change it is certain that there is none, and behind the next nothing was heard of it yet.
    listener.idle_to(131);
    assert_eq!(listener.map[place..place + 7], [0, 0, 0, 0, 0, 0, 1]);
    assert_eq!(listener.map[place + 7..place + 142], [0; 135]);
    listener.idle_to(3);
    assert_eq!(listener.map[place..place + 142], [0; 142]);
}

/// How far a list has come round is forgotten over a change and over a missed frame. Whether it is certain is forgotten over a change.
#[test]
fn bytes_behind_a_change() {
    let place = 142 * 7;
    let mut listener = heard(0, "abab");
    assert_eq!(listener.map[place..place + 7], [2, 1, 0, 0, 0, 2, 1]);
    listener.miss();
    listener.idle_to(listener.count + 1);
    assert_eq!(listener.map[place..place + 7], [2, 1, 0, 0, 0, 0, 1]);
    listener.hears(0, 7, "b", 0);
    assert_eq!(listener.map[place..place + 7], [2, 1, 0, 0, 0, 2, 1]);
    listener.idle_to(131);
    assert_eq!(listener.map[place..place + 7], [2, 1, 0, 0, 0, 0, 0]);
    // An announced one comes into force: over a sure change it is whole and certain.
    listener.hears(1, 7, "ac", 1);
    assert_eq!(listener.map[place + 71..place + 78], [2, 0, 1, 0, 0, 0, 1]);
    listener.idle_to(3);
    assert_eq!(listener.map[place..place + 7], [2, 1, 1, 0, 0, 0, 1]);
    assert_eq!(listener.map[place + 71..place + 142], [0; 71]);
}

/// In force and announced do not touch each other, and the panning vector touches neither.
#[test]
fn apart() {
    let mut listener = heard(0, "aba");
    listener.hears(1, 7, "cdc", 0);
    assert_eq!(listener.now(7), said(0, "ab"));
    assert_eq!(listener.at(7, 2), said(0, "cd"));
    listener.hears(0, 7, "bab", 1);
    listener.hears(1, 0x81, "xyz", 0);
    assert_eq!(listener.hear(0, 0x81, GONE, 0), 0);
    assert_eq!(listener.at(7, 2), said(0, "cd"));
    assert_eq!(listener.now(0x81), said(0, ""));
    assert_eq!(listener.announced(0x81), (0, 0));
    assert_eq!(listener.hear(0, 7, GONE, 0), 0);
    assert_eq!(listener.now(7), said(0, ""));
    assert_eq!(listener.at(7, 2), said(0, "cd"));
}
