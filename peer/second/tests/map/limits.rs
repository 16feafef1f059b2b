//! What the rules do not see. These are no errors of this crate: each row follows the rules to the letter.

use crate::listener::{said, Listener, GONE};

/// An announcement of which no frame was heard: what was in force is shown on behind the change, until a field comes that it does not
/// list.
#[test]
fn an_announcement_that_nobody_heard() {
    let mut listener = Listener::new(100);
    for links in 0..2 {
        listener.hears(0, 7, "a", links);
    }
    // Here "b" was announced.
    listener.miss();
    listener.idle_to(131);
    assert_eq!(listener.now(7), said(0, "a"));
    listener.hears(0, 7, "b", 0);
    assert_eq!(listener.now(7), said(46, ""));
    listener.hears(0, 7, "b", 1);
    assert_eq!(listener.now(7), said(0, "b"));
}

/// Behind 255 frames in a row nothing is unknown, nor in frames behind the next change: that there will be no component is held before all
/// that can be announced was.
#[test]
fn all_ones_that_are_not_the_last_word() {
    let mut listener = Listener::late(2);
    for _ in 0..260 {
        listener.idle_to(listener.count.wrapping_add(1));
    }
    assert_eq!(listener.hear(1, 7, GONE, 0), 0);
    assert_eq!(listener.at(7, 130), said(0, ""));
    assert_eq!(listener.unknown_at(7, 130), 0);
    listener.hears(1, 7, "a", 0);
    assert_eq!(listener.at(7, 130), said(46, ""));
    listener.idle_to(131);
    assert_eq!(listener.now(7), said(0, "a"));
}
