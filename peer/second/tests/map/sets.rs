//! At most 128 components, counted set by set: the announced ones, and those that are in force for certain.

use crate::listener::{fields, said, Listener, GONE, LAST};
use second::map::PANNING;

/// One who hears all from count 2 on, and to whom so many components were announced before count 130.
fn announced(count: u8) -> Listener {
    let mut listener = Listener::late(2);
    for id in 0..count {
        listener.hears(1, id, "a", 0);
    }
    listener.idle_to(130);
    listener
}

/// The same behind the change: they are in force for certain.
fn in_force(count: u8) -> Listener {
    let mut listener = announced(count);
    listener.idle_to(131);
    listener
}

fn hear(listener: &mut Listener, flag: u8, id: u8) -> u8 {
    listener.hear(flag, id, fields("a")[0], 0)
}

/// The components that are not among the first 128, but for the panning vector.
fn others() -> impl Iterator<Item = u8> {
    (128..=255).filter(|&id| id != PANNING)
}

/// Those that are in the set may say more; others may only say that they are not there.
#[test]
fn the_129th_is_refused() {
    let mut listener = in_force(128);
    for (id, number) in [(200, 45), (127, 0), (128, 45), (0x81, 0)] {
        let before = listener.map.clone();
        assert_eq!(hear(&mut listener, 0, id), number);
        assert!(number == 0 || listener.map == before);
    }
    assert_eq!(listener.hear(0, 200, GONE, 0), 0);
    assert_eq!(listener.hear(0, 3, GONE, 0), 0);
    assert_eq!(hear(&mut listener, 0, 200), 0);
    assert_eq!(hear(&mut listener, 0, 201), 45);
}

/// A component of which a field was heard in this configuration is in force for certain, too.
#[test]
fn certain_by_a_sure_change_or_by_a_field() {
    let mut listener = in_force(100);
    for id in 100..128 {
        assert_eq!(hear(&mut listener, 0, id), 0);
    }
    assert_eq!(hear(&mut listener, 0, 200), 45);
    // Over the next change, some of them may have been deleted unheard.
    listener.idle_to(2);
    assert_eq!(hear(&mut listener.again(1), 0, 200), 45);
    assert_eq!(hear(&mut listener, 0, 200), 0);
    assert_eq!(listener.components(), 129);
}

/// A change that is not sure leaves nothing certain, whatever it puts in force.
#[test]
fn not_certain_by_a_change_that_is_not_sure() {
    let mut listener = Listener::late(2);
    for id in 0..127 {
        listener.hears(1, id, "a", 0);
    }
    // The last frame before the change.
    listener.miss();
    listener.idle_to(132);
    assert_eq!(listener.components(), 127);
    for id in others() {
        assert_eq!(hear(&mut listener, 0, id), 0);
    }
    assert_eq!(listener.components(), 254);
}

/// A change that is sure leaves what it puts in force certain, though frames behind it are missed.
#[test]
fn certain_though_frames_behind_the_change_are_missed() {
    let mut listener = announced(128);
    listener.miss();
    for (id, number) in [(200, 45), (127, 0)] {
        assert_eq!(hear(&mut listener, 0, id), number);
    }
}

/// 128 are announced and come into force, and 127 others behind the change. Announced, they are none too many: deletions may have been
/// missed, and how many there are is told. Without the flag each is one too many.
#[test]
fn more_than_128_by_a_change() {
    let mut listener = in_force(128);
    for id in others() {
        assert_eq!(hear(&mut listener.again(131), 0, id), 45);
        assert_eq!(hear(&mut listener, 1, id), 0);
    }
    assert_eq!(listener.count, 2);
    assert_eq!(listener.components(), 128);
    listener.idle_to(3);
    assert_eq!(listener.components(), 255);
    for id in [0, 127, 128, 255] {
        assert_eq!(listener.now(id), said(0, "a"));
    }
    // Certain are the 127 that came with this change, and with the first field of another there are 128.
    assert_eq!(hear(&mut listener, 0, 5), 0);
    assert_eq!(hear(&mut listener, 0, 6), 45);
    assert_eq!(hear(&mut listener, 0, 5), 0);
    assert_eq!(hear(&mut listener, 0, 255), 0);
}

/// In the frame of the last field, nothing is counted. The one half the counts away is another: behind the change.
#[test]
fn not_in_the_same_frame() {
    for (flag, listener) in [(0, in_force(128)), (1, announced(128))] {
        let last = listener.map[LAST];
        for (count, same) in [(last, true), (last.wrapping_add(128), false)] {
            let mut other = Listener {
                map: listener.map.clone(),
                count,
            };
            assert_eq!(hear(&mut other, flag, 200), 0);
            assert_eq!(other.map == listener.map, same);
        }
    }
}

/// 128 are announced up to the frame before the change. In that of the change, they are no longer.
#[test]
fn announced_ones_make_room_by_the_change() {
    let mut listener = announced(128);
    let full = listener.map.clone();
    assert_eq!(hear(&mut listener, 1, 200), 0);
    assert_eq!(listener.announced(200), (1, 128));
    assert_eq!(listener.now(127), said(0, "a"));
    // Behind the change, the 128 are in force: another is one too many there.
    for (id, number) in [(200, 45), (127, 0)] {
        listener.map = full.clone();
        listener.count = 130;
        assert_eq!(hear(&mut listener, 0, id), number);
    }
    // One that was refused is missed. The change is sure all the same, and it is refused in the next frame, too.
    listener.map = full;
    listener.count = 130;
    assert_eq!(hear(&mut listener, 0, 200), 45);
    assert_eq!(hear(&mut listener, 0, 200), 45);
}

/// There are only 128 frames from one change to the next, so the count of the last one is put back by hand.
#[test]
fn the_129th_announced_is_refused() {
    let mut listener = announced(128).again(101);
    let full = listener.map.clone();
    assert_eq!(hear(&mut listener, 1, 200), 45);
    assert!(listener.map == full);
    for number in [hear(&mut listener, 1, 127), hear(&mut listener, 0, 200)] {
        assert_eq!(number, 0);
    }
    // A deletion is no list: it is not counted, and it takes one out.
    assert_eq!(listener.hear(1, 201, GONE, 0), 0);
    assert_eq!(hear(&mut listener, 1, 201), 45);
    assert_eq!(listener.hear(1, 5, GONE, 0), 0);
    assert_eq!(hear(&mut listener, 1, 201), 0);
    assert_eq!(hear(&mut listener, 1, 5), 45);
}

/// "128 old, one deleted, one new": nothing is refused, in whichever order it is announced.
#[test]
fn one_goes_and_one_comes() {
    for first in [true, false] {
        let mut listener = in_force(128);
        for goes in [first, !first] {
            let number = if goes {
                listener.hear(1, 17, GONE, 0)
            } else {
                hear(&mut listener, 1, 200)
            };
            assert_eq!(number, 0);
        }
        listener.idle_to(2);
        // Until the change, there is no room for another.
        assert_eq!(hear(&mut listener.again(1), 0, 201), 45);
        // In its frame, the set is that behind it: only 200 is in it for certain.
        for id in [200, 201, 17] {
            assert_eq!(hear(&mut listener.again(2), 0, id), 0);
        }
        listener.idle_to(3);
        assert_eq!(listener.now(17), said(0, ""));
        assert_eq!(listener.now(200), said(0, "a"));
        assert_eq!(listener.components(), 128);
        assert_eq!(hear(&mut listener, 0, 201), 0);
        assert_eq!(listener.components(), 129);
    }
}

/// A multiplex that is always full: all 128 are announced, all 128 are described, and half of them make room for others at once. No field
/// is refused.
#[test]
fn a_full_multiplex_is_not_refused() {
    let mut listener = announced(128);
    for id in 0..128 {
        assert_eq!(hear(&mut listener, 0, id), 0);
    }
    assert_eq!(listener.count, 2);
    for (goes, comes) in (0..64).zip(others()) {
        assert_eq!(listener.hear(1, goes, GONE, 0), 0);
        assert_eq!(hear(&mut listener, 1, comes), 0);
    }
    assert_eq!(listener.count, 130);
    for id in (64..128).chain(others().take(64)) {
        assert_eq!(hear(&mut listener, 0, id), 0);
    }
    assert_eq!(listener.count, 2);
    assert_eq!(listener.components(), 128);
    assert_eq!(hear(&mut listener.again(1), 0, 5), 45);
}

/// One goes and none comes: there is room from the frame of the change on.
#[test]
fn room_from_the_change_on() {
    let mut listener = in_force(128);
    assert_eq!(listener.hear(1, 17, GONE, 0), 0);
    listener.idle_to(1);
    assert_eq!(hear(&mut listener, 0, 200), 45);
    assert_eq!(hear(&mut listener, 0, 200), 0);
    assert_eq!(hear(&mut listener, 0, 17), 0);
}

/// 128 others are in force behind a change of which nothing was heard: none of them is refused.
#[test]
fn all_went_unheard() {
    let mut listener = in_force(128);
    listener.idle_to(250);
    listener.count = 10;
    for id in others() {
        assert_eq!(hear(&mut listener, 0, id), 0);
    }
    assert_eq!(listener.components(), 255);
}

impl Listener {
    /// Another listener with the same map, whose next frame has a count.
    fn again(&self, count: u8) -> Listener {
        let mut map = self.map.clone();
        map[LAST] = count.wrapping_sub(1);
        Listener { map, count }
    }
}
